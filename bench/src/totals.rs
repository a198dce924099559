//! What a record near the limit costs. With a right record a bound shows that no total can come out above the most; with one whose
//! cells come out at the most, the library has to work out the totals before it writes. Both are timed in turn, a batch each, so
//! that they see the same machine; the best time of each counts.

use crate::equal::accepted;
use crate::exchanges::{self, Pair};
use crate::incremental;
use crate::measure::{Measure, BATCHES};
use crate::workloads::Workload;
use peer::call::{Answer, Call};
use peer::compare::Comparison;
use peer::library;
use peer::limits::TOTAL_LIMIT;
use peer::totals::{self, Totals, CELLS};

/// The record with which an exchange leaves as many cells as there may be, from a right one before it and after it.
fn at_the_limit(before: Totals, after: Totals) -> Totals {
    let mut record = before;
    record[CELLS] = TOTAL_LIMIT + before[CELLS] - after[CELLS];
    record
}

/// Compares an exchange that was accepted with a right record with the one at the limit, and with one cell more.
pub fn compare(comparison: &mut Comparison, work: &Workload, call: &Call, answer: &Answer) {
    let mut near = call.clone();
    near.totals = at_the_limit(call.totals, answer.after.totals);
    let found = accepted(comparison, work, &near);
    let alike = found.values == answer.values
        && found.after.tree == answer.after.tree
        && found.after.sets == answer.after.sets;
    comparison.check("a record near the limit changes an exchange", alike, || {
        near.to_string()
    });
    near.totals[CELLS] += 1;
    let over = comparison.call(work.name, &near);
    comparison.check("a cell too many is not refused", over.number == 27, || {
        near.to_string()
    });
}

/// An exchange and the record that it is lent.
struct Lent {
    node: usize,
    replacement: Vec<u32>,
    totals: Totals,
}

/// Both exchanges of every pair in turn, which leave the call's slices as they were: with right records, and with those at the
/// limit.
fn lent(call: &mut Call, pairs: &[Pair]) -> [Vec<Lent>; 2] {
    let mut all = [Vec::new(), Vec::new()];
    for (node, replacement) in pairs.iter().flat_map(Pair::steps) {
        call.node = *node;
        call.replacement.clone_from(replacement);
        let before = call.totals;
        let [count, _] = incremental::perform(call).expect("an accepted call");
        call.count = count as usize;
        for (own, totals) in all.iter_mut().zip([before, at_the_limit(before, call.totals)]) {
            own.push(Lent {
                node: *node,
                replacement: replacement.clone(),
                totals,
            });
        }
    }
    all
}

/// Makes all exchanges by the library, each with its record.
fn exchange_all(call: &mut Call, all: &[Lent]) {
    for own in all {
        call.node = own.node;
        call.replacement.clear();
        call.replacement.extend_from_slice(&own.replacement);
        call.totals = own.totals;
        let mut values = [0; 2];
        assert_eq!(library::perform(call, &mut values), 0, "a timed call is refused");
        call.count = values[0] as usize;
    }
}

/// The best seconds of one exchange, on average over these pairs: with right records, and with those at the limit.
fn in_turn(measure: &Measure, call: &mut Call, pairs: &[Pair]) -> [f64; 2] {
    let lent = lent(call, pairs);
    let mut best = [f64::INFINITY; 2];
    for _ in 0..BATCHES {
        for (best, all) in best.iter_mut().zip(&lent) {
            let seconds = measure.seconds(|| exchange_all(call, all));
            *best = best.min(seconds / all.len() as f64);
        }
    }
    best
}

/// Prints the table.
pub fn print(measure: &Measure, workloads: &[Workload]) {
    println!("Exchange with a record whose cells come out at the most there may be, beside the same with a right one: microseconds");
    println!("a call of the library, the best of {BATCHES} batches of each, made in turn.\n");
    println!("| workload | one leaf, right | at the limit | ratio | about 100 elements, right | at the limit | ratio |");
    println!("|---|---|---|---|---|---|---|");
    for work in workloads {
        let mut call = exchanges::exchange(work);
        let columns = [exchanges::leaves(work), exchanges::subtree(work)].map(|pairs| {
            call.totals = totals::right(&call);
            let [right, near] = in_turn(measure, &mut call, &pairs);
            format!("{:.1} | {:.1} | {:.2}", right * 1e6, near * 1e6, near / right)
        });
        println!("| {} | {} |", work.name, columns.join(" | "));
    }
}
