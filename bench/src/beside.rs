//! This library beside another build of it, such as the one before a change: the bench that was built with the other one and
//! this program are started in turn, each for one batch of every call, so that both see the same machine. The best time of
//! each counts. Which libraries they hold is printed, so that a library beside itself is not taken for another that is as
//! fast.

use crate::compiles;
use crate::exchanges;
use crate::measure::{Measure, BATCHES};
use crate::runs::library_run;
use crate::workloads::Workload;
use peer::library;
use std::path::Path;
use std::process::Command;

/// A timed call, as two columns of the table, and its seconds.
struct Timed {
    call: String,
    seconds: f64,
}

/// Length and sum of a bench's library, and its times.
struct Batch {
    archive: String,
    times: Vec<Timed>,
}

impl Batch {
    fn calls(&self) -> Vec<&str> {
        self.times.iter().map(|timed| timed.call.as_str()).collect()
    }

    /// Takes in another batch of the same bench.
    fn improve(&mut self, batch: &Batch) {
        for (best, timed) in self.times.iter_mut().zip(&batch.times) {
            best.seconds = best.seconds.min(timed.seconds);
        }
    }
}

/// Prints which library this is, and its time of every call: the seconds and then what was called, on a line each.
pub fn print_batch(measure: &Measure, workloads: &[Workload]) {
    println!("{}", library::ARCHIVE.expect("the library is linked"));
    for work in workloads {
        let print = |operation: &str, seconds: f64| println!("{seconds:e} {operation} | {}", work.name);
        print("Run", library_run(measure, work, &work.tree));
        let [leaf, hundred] = exchanges::library_exchanges(measure, work);
        print("Exchange of one leaf", leaf);
        print("Exchange of about 100 elements", hundred);
        if work.has_rule() {
            print("Compile", compiles::library_compile(measure, work));
        }
    }
}

/// What a bench prints as its batch.
fn batch(bench: &Path) -> Result<Batch, String> {
    let failed = |what: &str| format!("{}: {what}", bench.display());
    let output = Command::new(bench)
        .arg("batch")
        .output()
        .map_err(|error| failed(&error.to_string()))?;
    if !output.status.success() {
        let error = String::from_utf8_lossy(&output.stderr);
        return Err(failed(&format!("{}: {}", output.status, error.trim())));
    }
    let printed = String::from_utf8(output.stdout).map_err(|error| failed(&error.to_string()))?;
    read(&printed).ok_or_else(|| failed("no batch"))
}

fn read(printed: &str) -> Option<Batch> {
    let mut lines = printed.lines();
    Some(Batch {
        archive: lines.next()?.to_string(),
        times: lines.map(timed).collect::<Option<_>>()?,
    })
}

fn timed(line: &str) -> Option<Timed> {
    let (seconds, call) = line.split_once(' ')?;
    Some(Timed {
        call: call.to_string(),
        seconds: seconds.parse().ok()?,
    })
}

/// Times both and prints the table.
pub fn print(other: &Path) -> Result<(), String> {
    let this = std::env::current_exe().map_err(|error| error.to_string())?;
    let mut before = batch(other)?;
    let mut now = batch(&this)?;
    if before.calls() != now.calls() {
        return Err(format!("{}: it does not time the same calls", other.display()));
    }
    for _ in 1..BATCHES {
        before.improve(&batch(other)?);
        now.improve(&batch(&this)?);
    }
    print_table(&before, &now);
    Ok(())
}

fn print_table(before: &Batch, now: &Batch) {
    println!(
        "Before: the library of {}. Now: the library of {}.",
        before.archive, now.archive
    );
    if before.archive == now.archive {
        println!("They are the same library.");
    }
    println!("Microseconds a call, the best of {BATCHES} batches of each, made in turn.\n");
    println!("| call | workload | before | now | ratio |");
    println!("|---|---|---|---|---|");
    for (before, now) in before.times.iter().zip(&now.times) {
        println!(
            "| {} | {:.2} | {:.2} | {:.3} |",
            now.call,
            before.seconds * 1e6,
            now.seconds * 1e6,
            now.seconds / before.seconds
        );
    }
}
