//! Times Run, Exchange and Compile of the library beside two other simulations and an incremental Exchange on the same
//! inputs, after checking that all results are equal: `bench [MILLISECONDS]`, the length of one batch. Prints tables of
//! times and ratios, and what the ratios are held to. `bench anything` prints the same tables for rules with anything.
//! `bench holes` times the library over an alphabet with holes beside the same without their marks. `bench totals` times
//! Exchange with a record near the limit beside the same with a right one. `bench beside OTHER` times the library beside that
//! of another build of this program; both are started as `bench batch`, which prints the time of one batch of each call.
//! HAQBYLUR_LIB_DIR names the folder of the static library when this is built.

mod anything;
mod automaton;
mod beside;
mod books;
mod byhand;
mod compiles;
mod consed;
mod equal;
mod exchanges;
mod holes;
mod incremental;
mod measure;
mod runs;
mod targets;
mod textbook;
mod totals;
mod workloads;

use measure::{Measure, BATCHES};
use peer::library;
use std::path::Path;
use std::process::ExitCode;
use std::time::Duration;
use workloads::Workload;

/// The length of a batch where none is given.
const MILLISECONDS: u64 = 5;

const USAGE: &str = "the arguments are [MILLISECONDS], anything, holes, totals, beside OTHER or batch";

fn main() -> ExitCode {
    if !library::LINKED {
        return failed(library::NOT_LINKED);
    }
    let arguments: Vec<String> = std::env::args().skip(1).collect();
    match arguments.iter().map(String::as_str).collect::<Vec<_>>()[..] {
        [] => print_tables(MILLISECONDS),
        ["batch"] => {
            beside::print_batch(&measure(MILLISECONDS, 1), &workloads::all());
            ExitCode::SUCCESS
        }
        ["anything"] => print_anything(),
        ["holes"] => print_holes(),
        ["totals"] => print_totals(),
        ["beside", other] => match beside::print(Path::new(other)) {
            Ok(()) => ExitCode::SUCCESS,
            Err(error) => failed(&error),
        },
        [text] => match text.parse() {
            Ok(milliseconds) => print_tables(milliseconds),
            Err(_) => failed(USAGE),
        },
        _ => failed(USAGE),
    }
}

fn failed(error: &str) -> ExitCode {
    eprintln!("bench: {error}");
    ExitCode::from(2)
}

fn measure(milliseconds: u64, batches: usize) -> Measure {
    Measure {
        batch: Duration::from_millis(milliseconds),
        batches,
    }
}

fn print_anything() -> ExitCode {
    let workloads = workloads::with_anything();
    if !equal::each(&workloads) {
        return ExitCode::FAILURE;
    }
    print_times(MILLISECONDS, &workloads);
    ExitCode::SUCCESS
}

fn print_holes() -> ExitCode {
    let pairs = workloads::with_holes();
    if !equal::with_holes(&pairs) {
        return ExitCode::FAILURE;
    }
    holes::print(&measure(MILLISECONDS, 1), &pairs);
    ExitCode::SUCCESS
}

fn print_totals() -> ExitCode {
    let mut workloads = workloads::all();
    workloads.extend(workloads::with_anything());
    if !equal::each(&workloads) {
        return ExitCode::FAILURE;
    }
    totals::print(&measure(MILLISECONDS, 1), &workloads);
    ExitCode::SUCCESS
}

fn print_tables(milliseconds: u64) -> ExitCode {
    let workloads = workloads::all();
    if !equal::all(&workloads) {
        return ExitCode::FAILURE;
    }
    print_times(milliseconds, &workloads);
    ExitCode::SUCCESS
}

fn print_times(milliseconds: u64, workloads: &[Workload]) {
    let measure = measure(milliseconds, BATCHES);
    println!(
        "All results are equal. Times are the best of {} batches.\n",
        measure.batches
    );
    let runs = runs::print(&measure, workloads);
    println!();
    let exchanges = exchanges::print(&measure, workloads);
    println!();
    compiles::print(&measure, workloads);
    println!();
    for target in runs.iter().chain(&exchanges) {
        target.print();
    }
}
