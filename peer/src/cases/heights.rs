//! Document 02's U6: a chapter of height 512 is marked, one of 513 refused by 24, whatever its shape and its number of
//! elements; in Exchange too, where the used elements are that chapter and the result is a low one or as high.

use crate::call::{Answer, Call};
use crate::cases::in_slices::of_all_arities;
use crate::cases::shapes::{
    chain, chain_beside_low, chain_over_low, comb, combs, deepest, low, low_height, shape_children, under_one,
};
use crate::compare::Comparison;
use crate::length_word::with_length_word;
use crate::limits::{ARITY_LIMIT, HEIGHT_LIMIT, NODE_LIMIT};
use crate::refusals::{self, Condition};
use crate::words::{node_words, TableWord};

const MOST: usize = HEIGHT_LIMIT;

pub fn compare(comparison: &mut Comparison) {
    around_the_limit(comparison);
    highest_child(comparison);
    other_heights(comparison);
    most_nodes(comparison);
    no_trees(comparison);
    words_behind(comparison);
}

/// The chapter is too high: Run's condition, and Exchange's of the used chapter.
pub const TOO_HIGH: Condition = Condition::first(24);

/// The result of an exchange is too high.
pub const RESULT_TOO_HIGH: Condition = Condition::second(24);

/// A table of three states over the alphabet in which a symbol's number is its arity. A leaf reaches the first; a node that
/// has one child in a state, and leaves beside it, reaches the next one. So an exchange at the bottom of a comb changes the
/// marks of everything above it, unless the replacement reaches the first state too.
pub fn turning() -> Vec<u32> {
    with_length_word(&turning_over(&[0, 1, 2, 3, 4]))
}

/// The words of that table but for its length, over an alphabet with these symbols, one of each arity in
/// order.
pub fn turning_over(symbols: &[usize; ARITY_LIMIT + 1]) -> Vec<TableWord> {
    let transition = |arity: usize, target: usize| TableWord::Transition {
        symbol: symbols[arity],
        target,
    };
    let head = TableWord::Head {
        states: 3,
        accepting: 0,
    };
    let mut table = vec![head, transition(0, 0)];
    for (arity, place) in combs() {
        for state in 0..3 {
            table.push(transition(arity, (state + 1) % 3));
            table.extend((0..arity).map(|child| TableWord::Child(if child == place { state } else { 0 })));
        }
    }
    table
}

/// Compares the call, and checks that it has these faults and no others. Answers what the model answers.
pub fn expect_faults(comparison: &mut Comparison, wrong: &str, call: &Call, faults: &[Condition]) -> Answer {
    let answer = comparison.call(wrong, call);
    let found = refusals::faults(call);
    comparison.check(wrong, found == faults, || {
        format!("    faults {found:?} instead of {faults:?}\n{call}")
    });
    answer
}

/// Run on the chapter, with a mark word for each element and some to spare.
pub fn run(shape: &[usize]) -> Call {
    let lent = vec![0x5a5a_5a5a; shape.len() + 2];
    Call::run(&of_all_arities(), &turning(), &node_words(shape), lent)
}

/// Exchange of an element of the chapter, on marks that Run need not have written, with room for the most elements.
pub fn exchange(shape: &[usize], node: usize, replacement: &[usize]) -> Call {
    let mut tree = node_words(shape);
    tree.resize(NODE_LIMIT.max(shape.len()), 0x1234_5678);
    let sets = vec![0b101; tree.len()];
    let replacement = node_words(replacement);
    Call::exchange(
        &of_all_arities(),
        &turning(),
        tree,
        shape.len(),
        sets,
        node,
        &replacement,
    )
}

/// Expects the chapter, which has this height, to be judged by it alone: in Run, and in Exchange where its root and where
/// its deepest leaf give way to a leaf. So the result is one element, or as high as the chapter.
fn expect_by_height(comparison: &mut Comparison, wrong: &str, shape: &[usize], height: usize) {
    let faults = |all: &[Condition]| if height > MOST { all.to_vec() } else { Vec::new() };
    let used = faults(&[TOO_HIGH]);
    expect_faults(comparison, wrong, &run(shape), &used);
    let root = shape.len() - 1;
    expect_faults(comparison, wrong, &exchange(shape, root, &[0]), &used);
    let leaf = deepest(&shape_children(shape));
    let both = faults(&[TOO_HIGH, RESULT_TOO_HIGH]);
    expect_faults(comparison, wrong, &exchange(shape, leaf, &[0]), &both);
}

/// Combs of each arity with the next node at each place: a chain has arity 1, and with height 1 each is a lone element.
fn around_the_limit(comparison: &mut Comparison) {
    let wrong = "a chapter's height is judged otherwise";
    for (arity, place) in combs() {
        for height in [1, 2, MOST - 1, MOST, MOST + 1] {
            expect_by_height(comparison, wrong, &comb(arity, place, height), height);
        }
    }
}

/// Two to four chains under one node, the highest at each place: neither the first child nor the last nor all of them
/// together decide.
fn highest_child(comparison: &mut Comparison) {
    let wrong = "a child is taken for the highest, or all are added";
    for arity in 2..=ARITY_LIMIT {
        for highest in 0..arity {
            for height in [MOST, MOST + 1] {
                let mut parts: Vec<_> = (0..arity).map(|place| chain(MOST - 3 - place)).collect();
                parts[highest] = chain(height - 1);
                expect_by_height(comparison, wrong, &under_one(&parts), height);
            }
        }
    }
}

/// Lower and much higher chains, some of them at the heights from which numbers of so many bits begin again.
fn other_heights(comparison: &mut Comparison) {
    let wrong = "some height is judged otherwise";
    for bits in 7..12 {
        let (whole, half) = (1 << bits, 1 << (bits - 1));
        for height in [whole, whole + 1, whole + half, whole + half + 1] {
            expect_by_height(comparison, wrong, &chain(height), height);
        }
    }
}

/// As many elements as there may be and fewer, with each height around the limit, the least and the greatest.
fn most_nodes(comparison: &mut Comparison) {
    let wrong = "a long chapter's height is judged otherwise";
    for nodes in [2 * MOST, NODE_LIMIT] {
        for height in [MOST - 1, MOST, MOST + 1] {
            for shape in [
                chain_beside_low(nodes, height, true),
                chain_beside_low(nodes, height, false),
                chain_over_low(nodes, height),
            ] {
                let has_as_many = shape.len() == nodes;
                comparison.check("a long chapter has another length", has_as_many, String::new);
                expect_by_height(comparison, wrong, &shape, height);
            }
        }
        expect_by_height(comparison, wrong, &low(nodes), low_height(nodes));
        expect_by_height(comparison, wrong, &chain(nodes), nodes);
    }
    for (arity, place) in combs() {
        let highest = 1 + (NODE_LIMIT - 1) / arity;
        expect_by_height(comparison, wrong, &comb(arity, place, highest), highest);
    }
    // With one element more it is their number that is refused, be they high or low.
    let over = Condition::first(9);
    expect_faults(comparison, wrong, &run(&low(NODE_LIMIT + 1)), &[over]);
    let chain = run(&chain(NODE_LIMIT + 1));
    expect_faults(comparison, wrong, &chain, &[over, TOO_HIGH]);
}

/// Words that are no single tree, though they hold trees that are too high, or would be if what is missing were there: they
/// have no height, and 11 comes first.
fn no_trees(comparison: &mut Comparison) {
    let high = chain(MOST + 1);
    for shape in [
        [&high[..], &[0]].concat(),
        [&[0], &high[..]].concat(),
        [&high[..], &high[..]].concat(),
        [chain(MOST), chain(MOST)].concat(),
        [&[1], &high[..]].concat(),
        [&high[..], &[2]].concat(),
        [&high[..], &[2], &vec![1; MOST]].concat(),
        [&high[..], &high[..], &high[..], &[4]].concat(),
        vec![1; MOST + 1],
        vec![0; NODE_LIMIT],
    ] {
        let wrong = "words that are no tree are judged by a height";
        let faults = [Condition::first(11)];
        expect_faults(comparison, wrong, &run(&shape), &faults);
        expect_faults(comparison, wrong, &exchange(&shape, 0, &[0]), &faults);
    }
}

/// The height is that of the used elements; what stands behind them in the slice is no part of the chapter.
fn words_behind(comparison: &mut Comparison) {
    let wrong = "what stands behind the used elements is judged by its height";
    for count in [1, 2, MOST - 1, MOST, MOST + 1] {
        let mut call = exchange(&chain(NODE_LIMIT), count - 1, &[0]);
        call.count = count;
        let faults = if count > MOST { vec![TOO_HIGH] } else { vec![] };
        expect_faults(comparison, wrong, &call, &faults);
    }
    let behind = node_words(&chain(MOST + 1));
    let mut call = exchange(&low(9), 8, &[0]);
    call.tree[9..9 + behind.len()].copy_from_slice(&behind);
    expect_faults(comparison, wrong, &call, &[]);
}
