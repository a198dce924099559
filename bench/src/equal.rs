//! Before anything is timed: the library, the two simulations and the incremental Exchange give what the model gives, on
//! every call that is to be timed; the incremental Exchange on random, damaged and refused calls too, and where the alphabet
//! has holes, with one in the chapter or in the replacement.

use crate::exchanges;
use crate::incremental::Incremental;
use crate::runs::SIMULATIONS;
use crate::workloads::{self, Workload};
use peer::call::{Answer, Call};
use peer::cases::{anything_histories, hole_histories, hole_places, holes};
use peer::cases::{damage, faults, heights, histories, length_words, lengths, packed, raised, totals};
use peer::compare::Comparison;
use peer::library;
use peer::model;
use peer::words;

const SEED: u64 = 1;
const CASES: u64 = 300;

/// Whether everything is equal; prints what is not.
pub fn all(workloads: &[Workload]) -> bool {
    let mut incremental = Comparison::with(Box::new(Incremental));
    untimed(&mut incremental);
    let workloads_agree = each(workloads);
    let anything_agrees = each(&workloads::with_anything());
    let pairs_agree = with_holes(&workloads::with_holes());
    workloads_agree && anything_agrees && pairs_agree && incremental.differences() == 0
}

/// Whether the library, the simulations and the incremental Exchange are right on workloads; prints where not.
pub fn each(workloads: &[Workload]) -> bool {
    let mut library = Comparison::with(library::matcher());
    let mut incremental = Comparison::with(Box::new(Incremental));
    let mut simulations_agree = true;
    for work in workloads {
        simulations_agree &= simulations(work);
        timed(&mut library, work);
        exchanges::compare(&mut library, work);
        exchanges::compare(&mut incremental, work);
    }
    simulations_agree && library.differences() == 0 && incremental.differences() == 0
}

/// Whether the library and the incremental Exchange are right on pairs of workloads, without and with holes in the alphabet;
/// prints where not.
pub fn with_holes(pairs: &[[Workload; 2]]) -> bool {
    let mut library = Comparison::with(library::matcher());
    let mut incremental = Comparison::with(Box::new(Incremental));
    for [unmarked, marked] in pairs {
        for work in [unmarked, marked] {
            timed(&mut library, work);
            exchanges::compare(&mut library, work);
            exchanges::compare(&mut incremental, work);
        }
        holed(&mut library, marked);
        holed(&mut incremental, marked);
    }
    library.differences() == 0 && incremental.differences() == 0
}

/// Every pair of faults, changed bits, lists of exchanges, slices of all lengths, tables in longer slices, chapters and results
/// around the greatest height, alphabets with holes, holes at all places, tables of rules with anything, and records at the bounds
/// of the totals; every number is answered.
fn untimed(comparison: &mut Comparison) {
    faults::compare(comparison);
    damage::compare(comparison, SEED, CASES);
    histories::compare(comparison, SEED, CASES);
    lengths::compare(comparison);
    length_words::compare(comparison);
    packed::compare(comparison);
    heights::compare(comparison);
    raised::compare(comparison);
    holes::compare(comparison);
    hole_places::compare(comparison);
    hole_histories::compare(comparison, SEED, CASES);
    anything_histories::compare(comparison, SEED, CASES);
    totals::compare(comparison);
    comparison.check_numbers();
}

/// Whether both simulations write what the model writes.
fn simulations(work: &Workload) -> bool {
    let mut agree = true;
    for tree in [&work.tree, &work.eighth] {
        let read = work.read_table();
        let expected = model::state_sets(&work.alphabet, &read, tree);
        let cells = words::count_ones(&expected);
        for (name, run) in SIMULATIONS {
            let mut sets = vec![u32::MAX; expected.len()];
            if run(&work.alphabet, &work.table, tree, &mut sets) != cells || sets != expected {
                println!("{}: the {name} simulation differs from the model", work.name);
                agree = false;
            }
        }
    }
    agree
}

/// The library's timed Run and Compile.
fn timed(comparison: &mut Comparison, work: &Workload) {
    for tree in [&work.tree, &work.eighth] {
        let lent = vec![0; tree.len() * work.width()];
        let call = Call::run(&work.alphabet, &work.table, tree, lent);
        accepted(comparison, work, &call);
    }
    if work.has_rule() {
        let lent = vec![0; work.table.len()];
        let call = Call::compile(&work.alphabet, &work.expression, lent);
        accepted(comparison, work, &call);
    }
}

/// A hole in the place of the first leaf and of the last, for Run and for Exchange, and one as the replacement.
fn holed(comparison: &mut Comparison, work: &Workload) {
    let hole = words::node_word(words::holes(&work.alphabet)[0]);
    let leaves = words::node_words(&words::leaves(&work.alphabet));
    let is_leaf = |node: &usize| leaves.contains(&work.tree[*node]);
    let places: Vec<usize> = (0..work.tree.len()).filter(is_leaf).collect();
    let exchange = |tree: Vec<u32>, replacement: u32| Call {
        tree,
        replacement: vec![replacement],
        ..exchanges::exchange(work)
    };
    let mut calls = vec![exchange(work.tree.clone(), hole)];
    for place in [places[0], places[places.len() - 1]] {
        let mut tree = work.tree.clone();
        tree[place] = hole;
        let lent = vec![0; tree.len() * work.width()];
        calls.push(Call::run(&work.alphabet, &work.table, &tree, lent));
        calls.push(exchange(tree, leaves[0]));
    }
    for call in calls {
        let answer = comparison.call(work.name, &call);
        comparison.check("a hole is not refused", answer.number == 26, || call.to_string());
    }
}

/// Compares a call that is to be timed: a refusal would be timed for nothing.
pub fn accepted(comparison: &mut Comparison, work: &Workload, call: &Call) -> Answer {
    let answer = comparison.call(work.name, call);
    comparison.check("a timed call is refused", answer.number == 0, || call.to_string());
    answer
}
