//! Compares the library with the model: `peer [SEED [CASES]]`. The lines before the last say how many calls of the library
//! and how many runs of the program agree, and how many checks of the model itself hold; the last is a summary of all,
//! `peer: N cases, D differences`, with what was left out behind it. The exit status is 0 exactly if the library is linked and
//! nothing differed, 1 with a difference, and 2 without a library or with wrong arguments.
//! HAQBYLUR_LIB_DIR names the folder of the static library when this is built, HAQBYLUR_MARKLIST the program when it runs.

use peer::cases::{
    anything, anything_histories, anything_members, anything_random, anything_shapes, anything_tables,
    anything_users, behind, damage, examples, faults, heights, high_chapters, high_histories, histories,
    hole_histories, hole_members, hole_places, hole_random, hole_rules, holes, largest, length_words,
    lengths, limits, packed, program, raised, random, total_histories, total_orders, total_places, totals,
};
use peer::compare::{said, Comparison, Tally};
use peer::library;
use std::process::ExitCode;
use std::time::Instant;

const SEED: u64 = 1;
const CASES: u64 = 4000;

fn main() -> ExitCode {
    let arguments: Vec<String> = std::env::args().skip(1).collect();
    let number = |place: usize, otherwise: u64| match arguments.get(place) {
        None => Some(otherwise),
        Some(text) => text.parse().ok(),
    };
    let (Some(seed), Some(cases), true) = (number(0, SEED), number(1, CASES), arguments.len() <= 2) else {
        eprintln!("usage: peer [SEED [CASES]]");
        return ExitCode::from(2);
    };
    if !library::LINKED {
        eprintln!("peer: {}", library::NOT_LINKED);
        return ExitCode::from(2);
    }
    println!("peer: seed {seed}, {cases} random cases");
    if let Some(archive) = library::ARCHIVE {
        println!("peer: the library has {archive}");
    }
    let mut comparison = Comparison::with(library::matcher());
    let mut section = |name: &str, compare: &mut dyn FnMut(&mut Comparison)| {
        let (start, before) = (Instant::now(), comparison.cases());
        compare(&mut comparison);
        let compared = comparison.cases() - before;
        let seconds = start.elapsed().as_secs_f64();
        println!("{name}: {compared} comparisons, {seconds:.1} s");
    };
    section("published examples", &mut examples::compare);
    section("limits of rules and tables", &mut limits::compare);
    section("limits of chapters and slices", &mut lengths::compare);
    section("largest table", &mut |all| {
        largest::compare(all, seed, cases / 10)
    });
    section("length words", &mut length_words::compare);
    section("tables end to end", &mut packed::compare);
    section("nothing behind a table", &mut behind::compare);
    section("heights of chapters", &mut heights::compare);
    section("exchanges that raise or lower", &mut raised::compare);
    section("holes in alphabets", &mut holes::compare);
    section("holes in rules", &mut |all| {
        hole_rules::compare(all, seed, cases / 4)
    });
    section("holes in chapters", &mut hole_places::compare);
    section("members without holes", &mut |all| {
        hole_members::compare(all, seed, cases / 40)
    });
    section("anything in rules", &mut anything::compare);
    section("members of anything", &mut anything_members::compare);
    section("rules of all shapes with anything", &mut |all| {
        anything_shapes::compare(all, seed, cases / 40)
    });
    section("tables over the most words", &mut anything_tables::compare);
    section("long tables in use", &mut anything_users::compare);
    section("records of totals", &mut totals::compare);
    section("records before other numbers", &mut total_orders::compare);
    section("records of exchanges of all sizes", &mut total_places::compare);
    section("two faults at once", &mut faults::compare);
    section("damaged words", &mut |all| damage::compare(all, seed, cases / 4));
    section("random rules and chapters", &mut |all| {
        random::compare(all, seed, cases)
    });
    section("lists of exchanges", &mut |all| {
        histories::compare(all, seed, cases / 4)
    });
    section("random rules and chapters with holes", &mut |all| {
        hole_random::compare(all, seed, cases)
    });
    section("lists of exchanges with holes", &mut |all| {
        hole_histories::compare(all, seed, cases / 4)
    });
    section("random rules and chapters with anything", &mut |all| {
        anything_random::compare(all, seed, cases / 2)
    });
    section("lists of exchanges with anything", &mut |all| {
        anything_histories::compare(all, seed, cases / 8)
    });
    section("random high chapters", &mut |all| {
        high_chapters::compare(all, seed, 1 + cases / 40)
    });
    section("lists of exchanges on high chapters", &mut |all| {
        high_histories::compare(all, seed, 1 + cases / 100)
    });
    section("lists of exchanges with records", &mut |all| {
        total_histories::compare(all, seed, cases / 4)
    });
    let path = program::path();
    if let Some(path) = &path {
        section("the program marklist", &mut |all| {
            program::compare(all, path, seed, cases / 20)
        });
    }
    section("numbers answered", &mut Comparison::check_numbers);
    print_numbers(&comparison);
    print_tally(&comparison.calls, "calls of the library agree");
    if path.is_some() {
        print_tally(&comparison.runs, "runs of the program agree");
    }
    print_tally(&comparison.checks, "checks of the model itself hold");
    // A summary without the program is not to be taken for a whole one.
    let skipped = match path {
        Some(_) => "",
        None => "; the program marklist was skipped (HAQBYLUR_MARKLIST)",
    };
    let (cases, differences) = (comparison.cases(), comparison.differences());
    println!("peer: {cases} cases, {differences} differences{skipped}");
    ExitCode::from(u8::from(differences > 0))
}

fn print_numbers(comparison: &Comparison) {
    for (operation, numbers) in &comparison.numbers {
        let counts: Vec<String> = numbers
            .iter()
            .map(|(refusal, times)| format!("{}: {times}", said(*refusal)))
            .collect();
        println!("{operation:?} answered {}", counts.join(", "));
    }
}

fn print_tally(tally: &Tally, agree: &str) {
    println!("peer: {} of {} {agree}", tally.agreeing(), tally.cases);
}
