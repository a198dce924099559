//! Compile of the library.

use crate::measure::{library_call, Measure};
use crate::workloads::Workload;
use peer::call::Call;

/// Seconds of one Compile of the library.
pub fn library_compile(measure: &Measure, work: &Workload) -> f64 {
    let table = vec![0; work.table.len()];
    library_call(measure, Call::compile(&work.alphabet, &work.expression, table))
}

pub fn print(measure: &Measure, workloads: &[Workload]) {
    println!("Compile: microseconds a call.\n");
    println!("| workload | rule words | table words | library |");
    println!("|---|---|---|---|");
    for work in workloads.iter().filter(|work| work.has_rule()) {
        println!(
            "| {} | {} | {} | {:.1} |",
            work.name,
            work.expression.len(),
            work.table.len(),
            library_compile(measure, work) * 1e6
        );
    }
}
