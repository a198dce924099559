//! Document 02's U10: records of exchanges at all places and of all sizes, up to the most elements and the greatest height, with
//! state sets of one word, of two and of the most. The work stops at the replacement's root, at an ancestor, or at the root.

use crate::call::{Answer, Call};
use crate::cases::heights::turning_over;
use crate::cases::in_slices::of_all_arities;
use crate::cases::shapes::{
    chain, chain_beside_low, comb, combs, deepest, depth, high, low, shape_children, under_one,
};
use crate::cases::totals::{exchange, with_records, Marks, Values, ALL_MARKS};
use crate::compare::Comparison;
use crate::language::Tree;
use crate::length_word::with_length_word;
use crate::limits::{ARITY_LIMIT, HEIGHT_LIMIT, NODE_LIMIT, STATE_LIMIT, TOTAL_LIMIT};
use crate::words::{node_words, TableWord};

/// State counts with which a set has one word, two, and the most; the first two leave bits of the last word spare.
pub const STATES: [usize; 3] = [3, 40, STATE_LIMIT];

pub fn compare(comparison: &mut Comparison) {
    every_place(comparison, &STATES, &ALL_MARKS);
    many_nodes(comparison, &STATES[..2], &many());
    many_nodes(comparison, &STATES[2..], &many()[..4]);
    all_cells(comparison);
}

/// A table of so many states over the alphabet in which a symbol's number is its arity. The first three are those of
/// `turning`, and a node that reaches the first reaches all further ones; the last accepts.
pub fn spread(states: usize) -> Vec<u32> {
    let mut table = turning_over(&[0, 1, 2, 3, 4]);
    table.extend((3..states).map(|to| TableWord::Epsilon { from: 0, to }));
    let accepting = states - 1;
    table[0] = TableWord::Head { states, accepting };
    with_length_word(&table)
}

/// A table over that alphabet by which every node reaches the most states.
fn all_states() -> Vec<u32> {
    let accepting = STATE_LIMIT / 2;
    let states = STATE_LIMIT;
    let mut table = vec![TableWord::Head { states, accepting }];
    for symbol in 0..=ARITY_LIMIT {
        table.push(TableWord::Transition { symbol, target: 0 });
        table.extend(vec![TableWord::Child(STATE_LIMIT - 1); symbol]);
    }
    table.extend((1..STATE_LIMIT).map(|to| TableWord::Epsilon { from: to - 1, to }));
    with_length_word(&table)
}

/// A chapter, the element that gives way, and what takes its place, as shapes.
type Change = (Tree, usize, Tree);

fn exchange_with(table: &[u32], marks: Marks, (used, node, replacement): &Change, room: usize) -> Call {
    let [used, replacement] = [used, replacement].map(|shape| node_words(shape));
    exchange(
        (&of_all_arities(), table),
        marks,
        &used,
        *node,
        &replacement,
        room,
    )
}

/// Elements at the beginning of a chapter, at its end and between, in combs of all sorts.
fn small() -> Vec<Change> {
    let mut replacements = [chain(1), chain(2), chain(4), low(9), comb(4, 2, 3)]
        .into_iter()
        .cycle();
    let mut changes = Vec::new();
    for (arity, place) in combs() {
        let shape = comb(arity, place, 5);
        let root = shape.len() - 1;
        for node in [
            0,
            deepest(&shape_children(&shape)),
            root / 2,
            root.max(1) - 1,
            root,
        ] {
            changes.push((shape.clone(), node, replacements.next().expect("a replacement")));
        }
    }
    // Under two children of which neither is a leaf nothing is reached, before and after: the work stops there.
    let beside = [under_one(&[chain(2), chain(3)]), vec![1; 4]].concat();
    changes.push((beside.clone(), 4, chain(2)));
    changes.push((beside.clone(), 1, chain(3)));
    changes.push((beside, 3, chain(1)));
    changes.push((low(20), 3, chain(7)));
    changes
}

/// Where the work of an exchange ended.
#[derive(Clone, Copy, PartialEq, Debug)]
enum Stop {
    Replacement,
    Ancestor,
    Root,
}

fn stop((used, node, replacement): &Change, answer: &Answer) -> Stop {
    let ancestors = answer.values[1] as usize - replacement.len();
    match depth(&shape_children(used), *node) {
        _ if ancestors == 0 => Stop::Replacement,
        all if ancestors < all => Stop::Ancestor,
        _ => Stop::Root,
    }
}

/// Exchanges in small chapters.
pub fn every_place(comparison: &mut Comparison, states: &[usize], marks: &[Marks]) {
    let wrong = "a record is moved otherwise at some place";
    for states in states {
        let table = spread(*states);
        let mut stops = Vec::new();
        for (place, change) in small().into_iter().enumerate() {
            for marks in marks {
                let call = exchange_with(&table, *marks, &change, 40);
                let which = if place % 8 == 0 {
                    Values::Many
                } else {
                    Values::AtBounds
                };
                let answer = with_records(comparison, wrong, &call, which);
                stops.push(stop(&change, &answer));
            }
        }
        for stop in [Stop::Replacement, Stop::Ancestor, Stop::Root] {
            let wrong = format!("no work ends at: {stop:?}");
            comparison.check(&wrong, stops.contains(&stop), String::new);
        }
    }
}

/// Thousands of elements come or go. In the highest combs of rank 4 with the next node last, three leaves of each node are
/// pending.
fn many() -> Vec<Change> {
    let pending = comb(ARITY_LIMIT, ARITY_LIMIT - 1, HEIGHT_LIMIT);
    let first = comb(ARITY_LIMIT, 0, HEIGHT_LIMIT);
    let root = pending.len() - 1;
    let half = NODE_LIMIT / 2;
    vec![
        (chain(1), 0, pending.clone()),
        (pending.clone(), root, chain(1)),
        (first.clone(), root, pending.clone()),
        (low(half), 0, low(half + 1)),
        (pending.clone(), deepest(&shape_children(&pending)), chain(1)),
        (first.clone(), deepest(&shape_children(&first)), chain(1)),
        (pending, root - 1, comb(ARITY_LIMIT, 1, HEIGHT_LIMIT - 1)),
        (
            chain_beside_low(half, HEIGHT_LIMIT, true),
            HEIGHT_LIMIT - 2,
            high(half),
        ),
        (chain_beside_low(half, HEIGHT_LIMIT, false), half - 2, chain(1)),
        (low(NODE_LIMIT), NODE_LIMIT - 1, high(NODE_LIMIT)),
    ]
}

pub fn many_nodes(comparison: &mut Comparison, states: &[usize], changes: &[Change]) {
    let wrong = "a record of many elements is moved otherwise";
    for states in states {
        let table = spread(*states);
        for (place, change) in changes.iter().enumerate() {
            let marks = [Marks::True, Marks::True, Marks::All, Marks::Random][place % 4];
            let call = exchange_with(&table, marks, change, NODE_LIMIT);
            with_records(comparison, wrong, &call, Values::AtBounds);
        }
    }
}

/// The first of these changes, with small state sets.
pub fn some_nodes(comparison: &mut Comparison) {
    many_nodes(comparison, &STATES[..1], &many()[..4]);
}

/// A chapter whose cells are as many as the figure: Run sets it, and exchanges leave it there or bring it there.
fn all_cells(comparison: &mut Comparison) {
    let (own, table) = (of_all_arities(), all_states());
    let shape = low(NODE_LIMIT);
    let full = [NODE_LIMIT as u32, NODE_LIMIT as u32, TOTAL_LIMIT];
    let lent = vec![0; NODE_LIMIT * STATE_LIMIT / 32];
    let marked = comparison.call(
        "the most cells are counted otherwise",
        &Call::run(&own, &table, &node_words(&shape), lent),
    );
    comparison.check(
        "the most cells are not the figure",
        marked.values == [full[0], full[2]] && marked.after.totals == full,
        String::new,
    );
    let wrong = "a record at the figure is taken otherwise";
    for change in [
        (shape.clone(), 0, chain(1)),
        (shape.clone(), NODE_LIMIT - 1, chain(1)),
        (chain(2), 1, shape),
    ] {
        let call = exchange_with(&table, Marks::True, &change, NODE_LIMIT);
        let answer = with_records(comparison, wrong, &call, Values::AtBounds);
        let is_full = call.totals == full || answer.after.totals == full;
        comparison.check("the figure is not reached", is_full, String::new);
    }
}
