//! The limits that document 01 names of chapters, replacements and lent slices, at each and one beyond; counts one off,
//! and counts that do not fit 32 bits.

use crate::automaton;
use crate::call::Call;
use crate::cases::examples;
use crate::cases::limits::{expect, run_and_list};
use crate::cases::shapes::{chain, low, under_one};
use crate::chance::Random;
use crate::compare::Comparison;
use crate::generate;
use crate::length_word::with_length_word;
use crate::limits::{ARITY_LIMIT, HEIGHT_LIMIT, NODE_LIMIT};
use crate::words::{self, entry_word, node_word, node_words, Operator, TableWord};

const MOST: usize = NODE_LIMIT;

/// More nodes than any tree has.
const ROOM: usize = MOST + MOST / 4;

pub fn compare(comparison: &mut Comparison) {
    trees(comparison);
    parts(comparison);
    slices(comparison);
    exchanges(comparison);
}

/// So many nodes with the symbols 0, 1 and 2, which have these arities, in a tree that is not too high: a chain, or where
/// that would be too high, a chain of ten and a low tree under one node. So the subtree of each of the first ten has one
/// node more than the one before.
fn tree(nodes: usize) -> Vec<u32> {
    let shape = if nodes <= HEIGHT_LIMIT {
        chain(nodes)
    } else {
        under_one(&[chain(10), low(nodes - 11)])
    };
    node_words(&shape)
}

/// Low trees and random trees of up to the most nodes and one more.
fn trees(comparison: &mut Comparison) {
    let own = [0, 1, 2, 4, 0].map(entry_word);
    let rule = words::operator_words(&[
        Operator::Symbol(0),
        Operator::Symbol(1),
        Operator::Symbol(0),
        Operator::Symbol(4),
        Operator::Symbol(2),
        Operator::Union,
        Operator::Closure(0),
    ]);
    let table = automaton::table(&own, &rule).expect("an expression");
    let lengths = [0, 1, MOST - 1, MOST, MOST + 1, 2 * MOST];
    for (nodes, number) in lengths.into_iter().zip([9, 0, 0, 0, 9, 9]) {
        let call = Call::run(&own, &table, &node_words(&low(nodes)), vec![3; 2 * nodes + 2]);
        expect(comparison, "a tree's length is judged otherwise", &call, number);
        let call = Call::list(&own, &table, nodes, &vec![3; 2 * nodes + 2], vec![3; nodes + 2]);
        expect(comparison, "a list's count is judged otherwise", &call, number);
    }
    for seed in 0..4 {
        let tree = generate::tree(&mut Random::new(seed), &own, MOST);
        run_and_list(comparison, &own, &table, &node_words(&tree));
    }
}

/// One node of each arity behind any number of leaves.
fn parts(comparison: &mut Comparison) {
    let table = with_length_word(&[TableWord::Head {
        states: 1,
        accepting: 0,
    }]);
    for arity in 0..=ARITY_LIMIT {
        let own = [0, arity].map(entry_word);
        for leaves in 0..ARITY_LIMIT + 2 {
            let mut tree = vec![node_word(0); leaves];
            tree.push(node_word(1));
            comparison.call(
                "too few or too many parts are judged otherwise",
                &Call::run(&own, &table, &tree, vec![1; 9]),
            );
        }
    }
}

/// Every lent slice at its least length, one word less and one more; counts one off.
fn slices(comparison: &mut Comparison) {
    let own = examples::alphabet();
    let rule = examples::expression();
    let tree = examples::tree();
    let table = automaton::table(&own, &rule).expect("an expression");
    let wrong = "a slice's length is judged otherwise";
    for (length, number) in [(0, 7), (36, 7), (37, 0), (38, 0)] {
        expect(
            comparison,
            wrong,
            &Call::compile(&own, &rule, vec![1; length]),
            number,
        );
    }
    for (length, number) in [(0, 12), (6, 12), (7, 0), (8, 0)] {
        expect(
            comparison,
            wrong,
            &Call::run(&own, &table, &tree, vec![1; length]),
            number,
        );
        let call = Call::list(&own, &table, 7, &vec![1; length], vec![1; 7]);
        expect(comparison, wrong, &call, number);
        let call = Call::list(&own, &table, 7, &[1; 7], vec![1; length]);
        expect(comparison, wrong, &call, if number == 12 { 13 } else { 0 });
    }
    for (count, number) in [
        (0, 9),
        (6, 0),
        (7, 0),
        (8, 12),
        (MOST, 12),
        (MOST + 1, 9),
        (usize::MAX, 9),
    ] {
        let call = Call::list(&own, &table, count, &[1; 7], vec![1; 7]);
        expect(comparison, wrong, &call, number);
    }
}

/// Counts, elements, replacements and results at their limits.
fn exchanges(comparison: &mut Comparison) {
    let own = [0, 1, 2].map(entry_word);
    let table = automaton::table(&own, &[Operator::Symbol(0).word(), Operator::Symbol(1).word()])
        .expect("an expression");
    let wrong = "an exchange at a limit is judged otherwise";
    // old nodes, chapter slice, marks slice, element, replacement nodes, number
    let cases = [
        (MOST, MOST, MOST, 0, 1, 0),
        (MOST, ROOM, ROOM, 0, 1, 0),
        (MOST, ROOM, ROOM, 0, 2, 16),
        (MOST, ROOM, ROOM, 1, 2, 0),
        (MOST, ROOM, ROOM, MOST - 1, MOST, 0),
        (MOST, ROOM, ROOM, MOST - 1, MOST + 1, 15),
        (MOST, ROOM, ROOM, MOST, 1, 14),
        (MOST + 1, ROOM, ROOM, 0, 1, 9),
        (MOST, MOST, MOST - 1, 0, 1, 12),
        (MOST, MOST, MOST, MOST - 1, 1, 0),
        (1, 1, 1, 0, 1, 0),
        (1, 1, 1, 0, 2, 16),
        (1, 2, 1, 0, 2, 16),
        (1, 1, 2, 0, 2, 16),
        (1, 2, 2, 0, 2, 0),
        (1, MOST, MOST, 0, MOST, 0),
        (2, MOST + 1, MOST + 1, 0, MOST, 16),
        (1, MOST, MOST - 1, 0, MOST, 16),
        (10, 12, 12, 3, 6, 0),
        (10, 12, 12, 3, 7, 16),
        (10, 12, 11, 3, 6, 16),
        (10, 11, 12, 3, 6, 16),
    ];
    for (old, tree_length, sets_length, node, nodes, number) in cases {
        let mut chapter = tree(old);
        chapter.resize(tree_length, 5);
        for word in [0, 1, u32::MAX] {
            let sets = vec![word; sets_length];
            let call = Call::exchange(&own, &table, chapter.clone(), old, sets, node, &tree(nodes));
            expect(comparison, wrong, &call, number);
        }
    }
    let call = Call::exchange(&own, &table, tree(6), 7, vec![0; 9], 0, &tree(1));
    expect(comparison, wrong, &call, 9);
    let call = Call::exchange(&own, &table, tree(6), 5, vec![0; 5], 4, &tree(2));
    expect(comparison, wrong, &call, 0);
}
