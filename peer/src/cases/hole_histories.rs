//! Lists of Exchange calls over alphabets with holes (document 02, U8: demand 3 with 26 among the refusals).
//! No hole comes into a chapter that Run has taken, so the fresh Run at the end takes it too.

use crate::call::Call;
use crate::cases::histories::{demand_3, draw, false_marks, start, History};
use crate::cases::holes::HOLE_IN_CHAPTER;
use crate::cases::limits::expect;
use crate::cases::patterns::Patterns;
use crate::chance::Random;
use crate::compare::Comparison;
use crate::generate::holes;
use crate::limits::HEIGHT_LIMIT;
use crate::postfix;
use crate::words::{self, node_words};

pub fn compare(comparison: &mut Comparison, seed: u64, cases: u64) {
    comparison.random_cases("lists with holes", seed, cases, |comparison, case, random| {
        true_marks(comparison, random, 40, 12);
        false_marks(comparison, random, Patterns::over(holes::mixed_alphabet));
        if case % 200 == 0 {
            true_marks(comparison, random, 800, 100);
        }
    });
}

/// A list of calls, of which some have holes in their replacements. Beside some of them the same call is made
/// with a hole in the used chapter, which is gone for the next one.
fn true_marks(comparison: &mut Comparison, random: &mut Random, budget: usize, calls: usize) {
    let patterns = Patterns::over(holes::mixed_alphabet);
    let History { call, expression } = start(comparison, random, budget, patterns);
    let calls = random.between(0, calls);
    // Demand 3 begins with a chapter that Run has taken.
    let used = words::symbols(&call.tree[..call.count]);
    if postfix::tree_height(&used, &words::arities(&call.alphabet)) > HEIGHT_LIMIT {
        return;
    }
    demand_3(comparison, random, call, calls, |comparison, random, call, _| {
        draw(random, call, &expression);
        if random.once_in(3) {
            with_hole(comparison, random, call);
        }
    });
}

/// The same call with a hole in the used chapter: it is refused, whatever the element and the replacement
/// are.
fn with_hole(comparison: &mut Comparison, random: &mut Random, call: &Call) {
    let mut spoiled = call.clone();
    let mut used = words::symbols(&call.tree[..call.count]);
    holes::put(random, &call.alphabet, &mut used);
    spoiled.count = used.len();
    spoiled.tree[..used.len()].copy_from_slice(&node_words(&used));
    let wrong = "an exchange on a chapter with a hole is taken";
    expect(comparison, wrong, &spoiled, HOLE_IN_CHAPTER.number);
}
