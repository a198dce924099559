//! Lists of Exchange calls with the tables of rules with `anything` (document 02, U7): over alphabets with holes and
//! without, and with tables of up to the most words.

use crate::cases::histories::{false_marks, true_marks};
use crate::cases::patterns::Patterns;
use crate::compare::Comparison;
use crate::generate::{self, holes};

pub fn compare(comparison: &mut Comparison, seed: u64, cases: u64) {
    comparison.random_cases("lists with anything", seed, cases, |comparison, case, random| {
        let patterns = match case % 4 {
            0 | 1 => Patterns::with_anything_over(generate::alphabet),
            2 => Patterns::with_anything_over(holes::mixed_alphabet),
            _ => Patterns::LONG,
        };
        true_marks(comparison, random, patterns, 40, 12);
        false_marks(comparison, random, patterns);
        if case % 200 == 0 {
            true_marks(comparison, random, patterns, 300, 200);
        }
        if case % 200 == 103 {
            true_marks(comparison, random, Patterns::LONG, 200, 60);
        }
    });
}
