//! Document 02's U10 in lists of Exchange calls. A right record is what a fresh Run sets, after each call of a list, and no call
//! is refused for it (demand 3). A wrong one stays wrong by the same numbers, whatever the marks are, until a call is refused.

use crate::call::{Call, Operation};
use crate::cases::histories::{demand_3, draw, start, step, History};
use crate::cases::patterns::Patterns;
use crate::cases::totals::{bounds, differences, records, Values, EACH_TOTAL, TOTALS_OUTSIDE};
use crate::chance::Random;
use crate::compare::Comparison;
use crate::generate::{self, holes};
use crate::limits::TOTAL_LIMIT;
use crate::refusals;
use crate::totals::{self, Totals};
use std::collections::BTreeSet;

pub fn compare(comparison: &mut Comparison, seed: u64, cases: u64) {
    let wanted = [None, Some(TOTALS_OUTSIDE)].map(|refusal| (Operation::Exchange, refusal));
    comparison.check_meets(&wanted, |comparison| {
        comparison.random_cases("lists with totals", seed, cases, |comparison, case, random| {
            right_record(comparison, random, 30, 8);
            wrong_record(comparison, random);
            near_bounds(comparison, random);
            if case % 100 == 0 {
                right_record(comparison, random, 500, 60);
            }
        });
    });
}

fn patterns(random: &mut Random) -> Patterns {
    let all = [
        Patterns::over(generate::alphabet),
        Patterns::over(generate::alphabet),
        Patterns::over(holes::mixed_alphabet),
        Patterns::with_anything_over(generate::alphabet),
    ];
    random.pick(&all)
}

/// Demand 3, with a fresh Run before each call.
fn right_record(comparison: &mut Comparison, random: &mut Random, budget: usize, calls: usize) {
    let patterns = patterns(random);
    let History { call, expression } = start(comparison, random, budget, patterns);
    // Demand 3 begins with a chapter that Run has taken.
    if !refusals::faults(&fresh_run(random, &call)).is_empty() {
        return;
    }
    let calls = random.between(1, calls);
    demand_3(comparison, random, call, calls, |comparison, random, call, _| {
        let fresh = comparison.call("a fresh Run in a list differs", &fresh_run(random, call));
        let is_equal = fresh.number == 0 && fresh.after.totals == call.totals;
        comparison.check("the record in a list is not a fresh Run's", is_equal, || {
            call.to_string()
        });
        draw(random, call, &expression);
    });
}

fn fresh_run(random: &mut Random, call: &Call) -> Call {
    let lent = random.words(call.sets.len());
    let mut run = Call::run(&call.alphabet, &call.table, &call.tree[..call.count], lent);
    run.totals = draw_record(random, call.totals);
    run
}

/// A record of which each total is right or not.
fn draw_record(random: &mut Random, right: Totals) -> Totals {
    right.map(|total| {
        let near = random.below(12) as u32;
        match random.below(12) {
            0..=4 => total,
            5 => total.saturating_sub(near),
            6 => total + near,
            7 => near,
            8 => TOTAL_LIMIT - near,
            9 => TOTAL_LIMIT + near,
            10 => u32::MAX - near,
            _ => random.word() as u32,
        }
    })
}

/// By how much each total of a call's record is wrong.
fn error(call: &Call) -> [i64; 3] {
    let right = totals::right(call);
    EACH_TOTAL.map(|total| i64::from(call.totals[total]) - i64::from(right[total]))
}

/// A list on marks that are true, or false in some or all words, with a wrong record.
fn wrong_record(comparison: &mut Comparison, random: &mut Random) {
    let patterns = patterns(random);
    let History { mut call, expression } = start(comparison, random, 30, patterns);
    match random.below(4) {
        0 => call.sets = random.words(call.sets.len()),
        1 => generate::flip(random, &mut call.sets),
        _ => {}
    }
    call.totals = draw_record(random, totals::right(&call));
    let wrong_by = error(&call);
    for _ in 0..random.between(1, 10) {
        draw(random, &mut call, &expression);
        step(comparison, "an exchange with a wrong record differs", &mut call);
        let is_as_wrong = error(&call) == wrong_by;
        comparison.check("a record becomes wrong by another number", is_as_wrong, || {
            call.to_string()
        });
    }
}

/// An exchange on such marks that is accepted with a right record, with some of the records near its bounds.
fn near_bounds(comparison: &mut Comparison, random: &mut Random) {
    let patterns = patterns(random);
    let History { mut call, expression } = start(comparison, random, 30, patterns);
    if random.once_in(2) {
        call.sets = random.words(call.sets.len());
    }
    call.totals = totals::right(&call);
    draw(random, &mut call, &expression);
    let answer = comparison.call("an exchange with a right record differs", &call);
    if answer.number != 0 {
        return;
    }
    let differences = differences(&call, &answer);
    let all: BTreeSet<Totals> = records(call.totals, differences, Values::Many);
    let all: Vec<Totals> = all.into_iter().collect();
    for _ in 0..4 {
        call.totals = random.pick(&all);
        comparison.call("an exchange with a record near its bounds differs", &call);
    }
    // Each total at a bound of its own or just beyond it, far from both, or where a word begins again.
    for _ in 0..6 {
        call.totals = differences.map(|difference| {
            let (least, most) = bounds(difference);
            let near = [least, least, most, most, least - 1, most + 1];
            let far = [(least + most) / 2, (1 << 32) - difference];
            let value = random.pick(&[&near[..], &far].concat());
            u32::try_from(value).unwrap_or(least as u32)
        });
        comparison.call("an exchange with a record near its bounds differs", &call);
    }
}
