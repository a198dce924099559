//! What holes in the alphabet cost: Run and Exchange of the library over the source's alphabet with the constants that the
//! rule names as holes, beside the same calls without their marks. Both are timed in turn, a batch each, so that they see the
//! same machine; the best time of each counts.

use crate::exchanges;
use crate::measure::{Measure, BATCHES};
use crate::runs::library_run;
use crate::workloads::Workload;

const CALLS: [&str; 3] = ["Run", "Exchange of one leaf", "Exchange of about 100 elements"];

/// Seconds of each call.
type Times = [f64; CALLS.len()];

fn batch(measure: &Measure, work: &Workload) -> Times {
    let run = library_run(measure, work, &work.tree);
    let [leaf, hundred] = exchanges::library_exchanges(measure, work);
    [run, leaf, hundred]
}

/// The best times of both workloads, of which each batch is measured so.
fn in_turn(measure: &Measure, pair: &[Workload; 2]) -> [Times; 2] {
    let mut best = [[f64::INFINITY; CALLS.len()]; 2];
    for _ in 0..BATCHES {
        for (best, work) in best.iter_mut().zip(pair) {
            for (best, seconds) in best.iter_mut().zip(batch(measure, work)) {
                *best = best.min(seconds);
            }
        }
    }
    best
}

/// Prints the table of pairs of workloads, without and with holes.
pub fn print(measure: &Measure, pairs: &[[Workload; 2]]) {
    println!("The source's rule over an alphabet with holes, beside the same without their marks: microseconds a call of the");
    println!("library, the best of {BATCHES} batches of each, made in turn.\n");
    println!("| call | elements | without | with | ratio |");
    println!("|---|---|---|---|---|");
    for pair in pairs {
        let [unmarked, marked] = in_turn(measure, pair);
        for (call, (unmarked, marked)) in CALLS.iter().zip(unmarked.iter().zip(marked)) {
            println!(
                "| {call} | {} | {:.2} | {:.2} | {:.3} |",
                pair[0].tree.len(),
                unmarked * 1e6,
                marked * 1e6,
                marked / unmarked
            );
        }
    }
}
