//! Run of the library beside the two simulations, and on an eighth of the elements.

use crate::measure::{library_call, Measure};
use crate::targets::Target;
use crate::workloads::Workload;
use crate::{consed, textbook};
use peer::call::Call;
use peer::model;
use std::collections::HashSet;
use std::hint::black_box;

pub type Simulation = fn(&[u32], &[u32], &[u32], &mut [u32]) -> u32;

pub const SIMULATIONS: [(&str, Simulation); 2] = [("textbook", textbook::run), ("hash-consed", consed::run)];

/// Seconds of one Run of the library.
pub fn library_run(measure: &Measure, work: &Workload, tree: &[u32]) -> f64 {
    let sets = vec![0; tree.len() * work.width()];
    library_call(measure, Call::run(&work.alphabet, &work.table, tree, sets))
}

fn simulated_run(measure: &Measure, work: &Workload, run: Simulation) -> f64 {
    let mut sets = vec![0; work.tree.len() * work.width()];
    measure.seconds(|| run(&work.alphabet, &work.table, &work.tree, black_box(&mut sets)))
}

/// How many different state sets the chapter has.
fn distinct_sets(work: &Workload) -> usize {
    let read = work.read_table();
    let sets = model::state_sets(&work.alphabet, &read, &work.tree);
    sets.chunks(work.width()).collect::<HashSet<_>>().len()
}

/// The seconds of one workload.
struct Times {
    library: f64,
    eighth: f64,
    textbook: f64,
    consed: f64,
}

impl Times {
    fn measured(measure: &Measure, work: &Workload) -> Times {
        Times {
            library: library_run(measure, work, &work.tree),
            eighth: library_run(measure, work, &work.eighth),
            textbook: simulated_run(measure, work, textbook::run),
            consed: simulated_run(measure, work, consed::run),
        }
    }

    /// How many times as long the library takes for eight times the elements.
    fn growth(&self, work: &Workload) -> f64 {
        let elements = work.tree.len() as f64 / work.eighth.len() as f64;
        self.library / self.eighth * 8.0 / elements
    }

    fn print(&self, work: &Workload) {
        let each = |seconds: f64| seconds * 1e9 / work.tree.len() as f64;
        println!(
            "| {} | {} | {} | {} | {} | {:.0} | {:.0} | {:.2} | {:.0} | {:.2} | {:.1} |",
            work.name,
            work.tree.len(),
            work.states(),
            work.table.len(),
            distinct_sets(work),
            each(self.library),
            each(self.textbook),
            self.library / self.textbook,
            each(self.consed),
            self.library / self.consed,
            self.growth(work),
        );
    }
}

/// Prints the table, and answers what it is held to.
pub fn print(measure: &Measure, workloads: &[Workload]) -> [Target; 3] {
    println!("Run: nanoseconds an element; how many times as long the library takes as each simulation;");
    println!("and how many times as long it takes for eight times the elements.\n");
    println!("| workload | elements | states | words | distinct sets | library | textbook | ratio | hash-consed | ratio | 8 times |");
    println!("|---|---|---|---|---|---|---|---|---|---|---|");
    let mut small = Target::new("Run to hash-consed, under 64 states", 1.5);
    let mut large = Target::new("Run to hash-consed, 64 states and more", 2.5);
    let mut growth = Target::new("Run of eight times the elements", 10.0);
    for work in workloads {
        let times = Times::measured(measure, work);
        times.print(work);
        let target = if work.states() < 64 {
            &mut small
        } else {
            &mut large
        };
        target.meet(times.library / times.consed, work.name);
        growth.meet(times.growth(work), work.name);
    }
    [small, large, growth]
}
