//! The largest compiled table of a rule without `anything`: none takes more words than document 02's U1 says, and one
//! takes as many.
//!
//! Every table word but the head and the length word belongs to one rule word. Into each entry of a rule word leads exactly
//! one word: from the entry of the word above, for F of a product and its c from G's exit, and for the last word from the
//! constants. A word with entries has one for each constant, a constant one, the empty word none. The other words are the symbol's
//! own (1 and its arity), both exits of a union, F's exit of a product, and at most three of a closure. So the most
//! words follow from how many rule words there are of each arity, and every such number is tried.

use crate::automaton;
use crate::call::Call;
use crate::chance::Random;
use crate::compare::Comparison;
use crate::generate;
use crate::length_word::LEAST_WORDS;
use crate::limits::{ARITY_LIMIT, COMPILED_LIMIT, CONSTANT_LIMIT, EXPRESSION_LIMIT, STATE_LIMIT};
use crate::words::{entry_word, Operator};

/// The most table words a rule word of this arity takes beside those into its entries:
/// a closure for one part, and a symbol for more.
const MOST_OWN: [usize; ARITY_LIMIT + 1] = [0, 3, 3, 4, 5];

/// The most words of a compiled table over so many constants.
fn most_words(constants: usize) -> usize {
    let mut most = 0;
    for four in 0..EXPRESSION_LIMIT {
        for three in 0..EXPRESSION_LIMIT - four {
            for two in 0..EXPRESSION_LIMIT - four - three {
                for one in 0..EXPRESSION_LIMIT - four - three - two {
                    let inner = [one, two, three, four];
                    most = most.max(words_with(constants, inner).unwrap_or(0));
                }
            }
        }
    }
    most
}

/// The most table words with so many rule words of each arity from 1 on; None beyond the limits.
fn words_with(constants: usize, inner: [usize; ARITY_LIMIT]) -> Option<usize> {
    let count: usize = inner.iter().sum();
    let parts: usize = (0..ARITY_LIMIT).map(|place| (place + 1) * inner[place]).sum();
    let leaves = 1 + parts - count;
    let states = count * (1 + constants) + leaves;
    if count + leaves > EXPRESSION_LIMIT || states > STATE_LIMIT {
        return None;
    }
    let own: usize = (0..ARITY_LIMIT)
        .map(|place| inner[place] * MOST_OWN[place + 1])
        .sum();
    Some(LEAST_WORDS + count * constants + leaves + own)
}

/// A symbol of arity 4 over 4 constants under 59 closures.
pub fn largest() -> (Vec<u32>, Vec<u32>) {
    let mut alphabet = vec![entry_word(0); CONSTANT_LIMIT];
    alphabet.push(entry_word(4));
    let mut expression: Vec<u32> = (0..4).map(|constant| Operator::Symbol(constant).word()).collect();
    expression.push(Operator::Symbol(CONSTANT_LIMIT).word());
    expression.extend((0..59).map(|place| Operator::Closure((7 * place) % CONSTANT_LIMIT).word()));
    (alphabet, expression)
}

pub fn compare(comparison: &mut Comparison, seed: u64, cases: u64) {
    let bounds: Vec<usize> = (1..=CONSTANT_LIMIT).map(most_words).collect();
    let is_largest = bounds.iter().max() == Some(&COMPILED_LIMIT);
    comparison.check(
        "the most table words are not document 02's figure",
        is_largest,
        || format!("    {bounds:?}"),
    );
    attained(comparison);
    comparison.random_cases("long rules", seed, cases, |comparison, _, random| {
        near_the_limits(comparison, random, &bounds);
    });
}

fn attained(comparison: &mut Comparison) {
    let (alphabet, expression) = largest();
    for (length, number) in [
        (COMPILED_LIMIT - 1, 7),
        (COMPILED_LIMIT, 0),
        (COMPILED_LIMIT + 1, 0),
    ] {
        let call = Call::compile(&alphabet, &expression, vec![0; length]);
        let answer = comparison.call("the largest table differs", &call);
        let is_attained =
            answer.number == number && (number != 0 || answer.values[0] as usize == COMPILED_LIMIT);
        comparison.check(
            "the largest table has not document 02's figure of words",
            is_attained,
            || call.to_string(),
        );
    }
}

/// A long rule over many constants, in a slice for the largest table: neither 7 nor 25 may be the answer.
fn near_the_limits(comparison: &mut Comparison, random: &mut Random, bounds: &[usize]) {
    let constants = random.between(12, CONSTANT_LIMIT);
    let mut alphabet = vec![entry_word(0); constants];
    alphabet.extend((1..=ARITY_LIMIT).map(entry_word));
    let budget = random.between(50, EXPRESSION_LIMIT);
    let expression = generate::expression(random, &alphabet, budget);
    let call = Call::compile(&alphabet, &expression, vec![0; COMPILED_LIMIT]);
    let answer = comparison.call("a rule near the limits has another table", &call);
    let own = automaton::table(&alphabet, &expression).map_or(0, |table| table.len());
    let within = automaton::states(&alphabet, &expression) > STATE_LIMIT || own <= bounds[constants - 1];
    comparison.check(
        "a table is longer than the bound",
        within && [0, 6].contains(&answer.number),
        || call.to_string(),
    );
}
