//! The comparison: each call is made of the model and of the compared matcher, and everything the two leave must be
//! equal. A difference is printed with the whole input in hexadecimal, so that it can be replayed.

use crate::call::{Answer, Call, Matcher, Operation};
use crate::chance::Random;
use crate::model;
use crate::refusals::{self, Condition};
use std::collections::BTreeMap;

/// How many differences are printed in full.
const PRINTED: u64 = 10;

/// How many cases of one sort there were, and how many of them differed.
#[derive(Clone, Copy, Default)]
pub struct Tally {
    pub cases: u64,
    pub differences: u64,
}

impl Tally {
    fn count(&mut self, agrees: bool) {
        self.cases += 1;
        self.differences += u64::from(!agrees);
    }

    pub fn agreeing(&self) -> u64 {
        self.cases - self.differences
    }
}

/// How often each operation refused by each condition and, under None, accepted.
pub type Numbers = BTreeMap<Operation, BTreeMap<Option<Condition>, u64>>;

fn times(numbers: &Numbers, operation: Operation, refusal: Option<Condition>) -> u64 {
    let given = numbers.get(&operation);
    given.and_then(|given| given.get(&refusal)).copied().unwrap_or(0)
}

pub struct Comparison {
    matcher: Box<dyn Matcher>,
    /// Calls made of the compared matcher.
    pub calls: Tally,
    /// Runs of the compared program.
    pub runs: Tally,
    /// Checks of the model and of the cases: they hold whatever is compared.
    pub checks: Tally,
    /// What the model answered, so that a run shows what it covered.
    pub numbers: Numbers,
    /// The random case being compared, as text; empty where the input is fixed.
    case: String,
    quiet: bool,
}

impl Comparison {
    pub fn with(matcher: Box<dyn Matcher>) -> Comparison {
        Comparison {
            matcher,
            calls: Tally::default(),
            runs: Tally::default(),
            checks: Tally::default(),
            numbers: BTreeMap::new(),
            case: String::new(),
            quiet: false,
        }
    }

    /// Counts differences and prints none: for trying matchers that are known to be wrong.
    pub fn quietly_with(matcher: Box<dyn Matcher>) -> Comparison {
        Comparison {
            quiet: true,
            ..Comparison::with(matcher)
        }
    }

    /// Compares so many random cases: each is given the numbers that follow from the seed, the subject and its place.
    pub fn random_cases(
        &mut self,
        subject: &str,
        seed: u64,
        cases: u64,
        mut compare: impl FnMut(&mut Comparison, u64, &mut Random),
    ) {
        for case in 0..cases {
            self.case = format!("{subject}, seed {seed}, case {case}: ");
            compare(self, case, &mut Random::of_case(subject, seed, case));
        }
        self.case.clear();
    }

    /// Compares one call. `wrong` says what would be wrong if they differed. Answers what the model answers.
    pub fn call(&mut self, wrong: &str, call: &Call) -> Answer {
        let found = self.matcher.answer(call);
        self.compare(wrong, call, found)
    }

    /// Compares one call whose table slice is said to have so many words. Only those that the call has are in memory.
    pub fn call_said(&mut self, wrong: &str, call: &Call, said: usize) -> Answer {
        let found = self.matcher.answer_said(call, said);
        self.compare(&format!("{wrong} (a table slice of {said} words)"), call, found)
    }

    fn compare(&mut self, wrong: &str, call: &Call, found: Answer) -> Answer {
        let refusal = refusals::refusal(call);
        let expected = model::answer_with(refusal, call);
        let counts = self.numbers.entry(call.operation).or_default();
        *counts.entry(refusal).or_default() += 1;
        let agrees = found == expected;
        self.calls.count(agrees);
        self.print_unless(agrees, wrong, || {
            format!("    {}\n{call}", difference(&expected, &found))
        });
        expected
    }

    /// Counts one run of the program. `wrong` says what would be wrong if it differed, `input` what it was given.
    pub fn run(&mut self, wrong: &str, agrees: bool, input: impl FnOnce() -> String) {
        self.runs.count(agrees);
        self.print_unless(agrees, wrong, input);
    }

    /// Checks a statement. `wrong` says what would be wrong if it did not hold, `input` of what it was said.
    pub fn check(&mut self, wrong: &str, holds: bool, input: impl FnOnce() -> String) {
        self.checks.count(holds);
        self.print_unless(holds, wrong, input);
    }

    pub fn cases(&self) -> u64 {
        self.calls.cases + self.runs.cases + self.checks.cases
    }

    pub fn differences(&self) -> u64 {
        self.calls.differences + self.runs.differences + self.checks.differences
    }

    /// Prints a case that was just counted, if it differs and is one of the first that do.
    fn print_unless(&self, agrees: bool, wrong: &str, input: impl FnOnce() -> String) {
        let differences = self.differences();
        if !agrees && !self.quiet && differences <= PRINTED {
            println!("difference {differences}: {}{wrong}\n{}", self.case, input());
        }
    }

    /// Compares, and checks that each of these operations was meanwhile refused by the condition beside it, or accepted.
    pub fn check_meets(
        &mut self,
        wanted: &[(Operation, Option<Condition>)],
        compare: impl FnOnce(&mut Comparison),
    ) {
        let before = self.numbers.clone();
        compare(self);
        for (operation, refusal) in wanted {
            let wrong = format!("no {operation:?} was answered here by {}", said(*refusal));
            let is_given = times(&self.numbers, *operation, *refusal) > times(&before, *operation, *refusal);
            self.check(&wrong, is_given, String::new);
        }
    }

    /// Checks that every operation was accepted and refused by each of its conditions at least once.
    pub fn check_numbers(&mut self) {
        for operation in Operation::ALL {
            let refusals = refusals::conditions(operation).into_iter().map(Some);
            for refusal in [None].into_iter().chain(refusals) {
                let wrong = format!("no {operation:?} was answered by {}", said(refusal));
                let is_given = times(&self.numbers, operation, refusal) > 0;
                self.check(&wrong, is_given, String::new);
            }
        }
    }
}

/// What refused a call, as text; 0 where it was accepted.
pub fn said(refusal: Option<Condition>) -> String {
    refusal.map_or("0".to_string(), |condition| condition.to_string())
}

/// The first thing in which two answers differ.
fn difference(expected: &Answer, found: &Answer) -> String {
    if !found.ended {
        return "memory was touched that is not there".to_string();
    }
    if expected.number != found.number {
        return format!("number {} instead of {}", found.number, expected.number);
    }
    if expected.values != found.values {
        return format!("values {:x?} instead of {:x?}", found.values, expected.values);
    }
    for ((name, expected), (_, found)) in expected.after.slices().into_iter().zip(found.after.slices()) {
        if let Some(place) = (0..expected.len()).find(|place| expected[*place] != found[*place]) {
            return format!(
                "{name} word {place} is {:08x} instead of {:08x}",
                found[place], expected[place]
            );
        }
    }
    "a word outside the lent slices changed".to_string()
}
