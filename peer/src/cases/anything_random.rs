//! Random rules with `anything` and chapters (document 02, U7): what is said of those without, over alphabets with holes
//! and without; rules whose tables are about as long as they may be; and changed bits.

use crate::automaton;
use crate::call::{Call, Operation};
use crate::cases::anything_tables::TOO_LONG;
use crate::cases::damage::{accepted_calls, every_bit, some_bits};
use crate::cases::examples::{self, A, C, F, G};
use crate::cases::limits::expect;
use crate::cases::patterns::{Alphabets, Patterns};
use crate::cases::random::{cases_over, length_near};
use crate::chance::Random;
use crate::compare::Comparison;
use crate::generate::{self, anything, holes};
use crate::limits::{EXPRESSION_LIMIT, STATE_LIMIT, TABLE_LIMIT};
use crate::refusals::Condition;
use crate::words::{node_words, operator_words, Operator};

pub fn compare(comparison: &mut Comparison, seed: u64, cases: u64) {
    small_calls(comparison);
    let wanted = [None, Some(TOO_LONG), Some(Condition::first(7))];
    let wanted = wanted.map(|refusal| (Operation::Compile, refusal));
    // So many that each of these is met.
    let cases = 100 + cases;
    comparison.check_meets(&wanted, |comparison| {
        comparison.random_cases("rules with anything", seed, cases, one_case);
    });
}

fn one_case(comparison: &mut Comparison, case: u64, random: &mut Random) {
    let [plain, holed, mixed] = [
        generate::alphabet as Alphabets,
        holes::alphabet,
        holes::mixed_alphabet,
    ]
    .map(Patterns::with_anything_over);
    let patterns = if case % 2 == 0 { plain } else { holed };
    cases_over(comparison, case / 2, random, patterns);
    near_the_limits(comparison, random);
    if case % 4 == 0 {
        some_bits(comparison, random, plain);
        some_bits(comparison, random, mixed);
    }
    if case % 16 == 0 {
        some_bits(comparison, random, Patterns::LONG);
    }
}

/// Every bit of the arguments of calls on f(anything, a) and on the product of that by g(c) over c.
fn small_calls(comparison: &mut Comparison) {
    use Operator::{Anything, Product, Symbol};
    let rule = [Anything, Symbol(A), Symbol(F), Symbol(C), Symbol(G), Product(C)];
    let tree = node_words(&[C, G, A, F]);
    for rule in [&rule[..3], &rule] {
        let rule = operator_words(rule);
        for call in accepted_calls(&examples::alphabet(), &rule, &tree, 1) {
            every_bit(comparison, &call);
        }
    }
}

/// A rule whose table is about as long as it may be, or one that has about the most states, in a slice of about the table's
/// length or of the most words.
fn near_the_limits(comparison: &mut Comparison, random: &mut Random) {
    let (alphabet, expression) = if random.once_in(6) {
        anything::with_most_states(random)
    } else {
        let alphabet = anything::wide_alphabet(random);
        let expression = anything::long_expression(random, &alphabet, EXPRESSION_LIMIT);
        (alphabet, expression)
    };
    let words = automaton::table(&alphabet, &expression).map_or(0, |table| table.len());
    let length = match random.below(3) {
        0 => TABLE_LIMIT,
        1 => words.min(TABLE_LIMIT),
        _ => length_near(random, words),
    };
    let call = Call::compile(&alphabet, &expression, random.words(length));
    let wrong = "a rule with a long table is judged otherwise";
    let number = match automaton::states(&alphabet, &expression) {
        states if states > STATE_LIMIT => 6,
        _ if words > TABLE_LIMIT => 25,
        _ if words > length => 7,
        _ => 0,
    };
    expect(comparison, wrong, &call, number);
}
