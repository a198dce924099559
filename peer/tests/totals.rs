//! The record of totals and its refusal as document 02 (U10) has them, in figures.

use peer::automaton;
use peer::call::{Answer, Call, Matcher};
use peer::cases::examples::{alphabet, expression, tree, A, B, D, F, G};
use peer::cases::{total_histories, total_orders, total_places, totals};
use peer::compare::Comparison;
use peer::limits::{NODE_LIMIT, STATE_LIMIT, TOTAL_LIMIT};
use peer::marks::Table;
use peer::model::Model;
use peer::totals::{counted, is_outside, moved, right};
use peer::words::node_words;

fn source_table() -> Vec<u32> {
    automaton::table(&alphabet(), &expression()).expect("an expression")
}

/// Run on the source's chapter, and Exchange on what it leaves.
fn run() -> Answer {
    Model.answer(&Call::run(&alphabet(), &source_table(), &tree(), vec![0; 12]))
}

fn exchange(node: usize, replacement: &[usize], totals: [u32; 3]) -> Answer {
    let mut chapter = tree();
    chapter.resize(12, 0);
    let table = source_table();
    let mut call = Call::exchange(
        &alphabet(),
        &table,
        chapter,
        7,
        run().after.sets,
        node,
        &node_words(replacement),
    );
    call.totals = totals;
    Model.answer(&call)
}

#[test]
fn the_figure_is_another() {
    assert_eq!(TOTAL_LIMIT, 4_194_304);
    assert_eq!(TOTAL_LIMIT as usize, NODE_LIMIT * STATE_LIMIT);
}

#[test]
fn the_source_has_other_totals() {
    let marked = run();
    assert_eq!(marked.values[0], 7);
    assert_eq!(marked.after.totals, [7, 3, marked.values[1]]);
    let right = marked.after.totals;
    // Document 01: hits 2 and 3 remain of 2, 3 and 4; and instead 2, 5 and 6.
    for (replacement, elements, hits) in [(vec![D], 6, 2), (vec![A, B, F, G], 9, 3)] {
        let answer = exchange(4, &replacement, right);
        let ones = answer.after.sets[..elements]
            .iter()
            .map(|word| word.count_ones())
            .sum();
        assert_eq!(answer.after.totals, [elements as u32, hits, ones]);
        // Every total is as wrong afterwards as it was before.
        let wrong = right.map(|total| total + 1000);
        let answer_to_wrong = exchange(4, &replacement, wrong);
        assert_eq!(
            answer_to_wrong.after.totals,
            answer.after.totals.map(|total| total + 1000)
        );
    }
}

#[test]
fn a_bound_is_another() {
    let right = run().after.totals;
    // One element, one hit less.
    let number = |totals: [u32; 3]| exchange(4, &[D], totals).number;
    assert_eq!(number(right), 0);
    for (total, less) in [(0, 1), (1, 1)] {
        for (value, expected) in [
            (less - 1, 27),
            (less, 0),
            (TOTAL_LIMIT, 0),
            (TOTAL_LIMIT + less, 0),
            (TOTAL_LIMIT + less + 1, 27),
            (u32::MAX, 27),
        ] {
            let mut totals = right;
            totals[total] = value;
            assert_eq!(number(totals), expected, "{totals:?}");
        }
    }
    // What is not moved is judged too.
    let unmoved = |total: u32| exchange(0, &[A], [total; 3]);
    assert_eq!((unmoved(0).number, unmoved(TOTAL_LIMIT).number), (0, 0));
    assert_eq!(unmoved(TOTAL_LIMIT).after.totals, [TOTAL_LIMIT; 3]);
    assert_eq!(unmoved(TOTAL_LIMIT + 1).number, 27);
    assert_eq!(unmoved(TOTAL_LIMIT + 1).after.totals, [TOTAL_LIMIT + 1; 3]);
}

#[test]
fn totals_are_counted_otherwise() {
    let table = Table::read(&alphabet(), &source_table()).expect("a table");
    // 29 states, of which 24 is final; bits 29 to 31 are none of a state.
    assert_eq!((table.states, table.accepting, table.width()), (29, 24, 1));
    assert_eq!(counted(&table, &[1 << 24, 0, 0xe000_0000, 3 << 24]), [4, 2, 6]);
    assert_eq!(moved([5, 5, 5], [6, 1, 0], [0, 1, 9]), [-1, 5, 14]);
    let most = i64::from(TOTAL_LIMIT);
    assert!(!is_outside([0, most, 1]));
    for total in 0..3 {
        for value in [-1, most + 1] {
            let mut totals = [7; 3];
            totals[total] = value;
            assert!(is_outside(totals));
        }
    }
}

#[test]
fn a_refused_run_or_list_changes_the_record() {
    let mut call = Call::run(&alphabet(), &source_table(), &tree(), vec![0; 6]);
    call.totals = [1, 2, 3];
    let answer = Model.answer(&call);
    assert_eq!((answer.number, answer.after.totals), (12, [1, 2, 3]));
    let names = |call: &Call| call.slices().map(|(_, words)| words.len());
    assert_eq!(names(&call)[7], 3);
    assert_eq!(names(&Call::list(&alphabet(), &[], 7, &[], vec![]))[7], 0);
    let exchange = Call::exchange(&alphabet(), &[], tree(), 7, vec![], 0, &[]);
    assert_eq!(right(&exchange), [7, 0, 0]);
}

#[test]
fn the_model_differs_from_itself() {
    let mut comparison = Comparison::with(Box::new(Model));
    totals::compare(&mut comparison);
    total_orders::compare(&mut comparison);
    total_places::every_place(&mut comparison, &total_places::STATES[..2], &totals::ALL_MARKS);
    total_places::some_nodes(&mut comparison);
    total_histories::compare(&mut comparison, 5, 60);
    assert_eq!(comparison.differences(), 0);
}
