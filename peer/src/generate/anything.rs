//! Expressions with `anything` (document 02, U7), and alphabets over which their tables are long.

use crate::automaton;
use crate::chance::Random;
use crate::generate;
use crate::limits::{
    ARITY_LIMIT, COMPILED_LIMIT, CONSTANT_LIMIT, EXPRESSION_LIMIT, SYMBOL_LIMIT, TABLE_LIMIT,
};
use crate::words::{self, entry_word, Operator};

/// An expression with `anything` at one of its leaves, or at several, over an alphabet with holes or without.
pub fn expression(random: &mut Random, alphabet: &[u32], budget: usize) -> Vec<u32> {
    let mut expression = generate::expression(random, alphabet, budget);
    let leaves = leaves(alphabet, &expression);
    let one = random.pick(&leaves);
    for leaf in leaves {
        if leaf == one || random.once_in(4) {
            expression[leaf] = Operator::Anything.word();
        }
    }
    expression
}

/// The words that take no parts.
fn leaves(alphabet: &[u32], expression: &[u32]) -> Vec<usize> {
    (0..expression.len())
        .filter(|place| words::operands(alphabet, expression[*place]) == Some(0))
        .collect()
}

/// An alphabet in which many symbols have children.
pub fn wide_alphabet(random: &mut Random) -> Vec<u32> {
    let constants = random.between(1, CONSTANT_LIMIT);
    let others = random.between(24, SYMBOL_LIMIT - constants);
    let mut alphabet = vec![entry_word(0); constants];
    alphabet.extend((0..others).map(|_| entry_word(random.between(1, ARITY_LIMIT))));
    random.shuffle(&mut alphabet);
    alphabet
}

/// An expression of any length, not of the budget's, with `anything` at so many leaves that its table is longer than
/// any without; some are longer than a table may be.
pub fn long_expression(random: &mut Random, alphabet: &[u32], _: usize) -> Vec<u32> {
    // In the place of another leaf `anything` takes so many words more, or one less.
    let arities = words::arities(alphabet);
    let more: usize = arities.iter().map(|arity| 2.max(1 + arity)).sum();
    loop {
        let aim = random.between(COMPILED_LIMIT + EXPRESSION_LIMIT, TABLE_LIMIT + 300);
        let budget = random.between(8, EXPRESSION_LIMIT);
        let mut expression = generate::expression(random, alphabet, budget);
        let table = automaton::table(alphabet, &expression).expect("an expression");
        let count = (aim - table.len()).div_ceil(more);
        let mut leaves = leaves(alphabet, &expression);
        random.shuffle(&mut leaves);
        if count <= leaves.len() {
            for leaf in &leaves[..count] {
                expression[*leaf] = Operator::Anything.word();
            }
            return expression;
        }
    }
}

/// An alphabet of the most constants, and an expression over it of about the most words with `anything` at every leaf: it
/// has about the most states.
pub fn with_most_states(random: &mut Random) -> (Vec<u32>, Vec<u32>) {
    let mut alphabet = vec![entry_word(0); CONSTANT_LIMIT];
    alphabet.extend((0..random.between(1, 16)).map(|_| entry_word(random.between(1, ARITY_LIMIT))));
    random.shuffle(&mut alphabet);
    let budget = random.between(EXPRESSION_LIMIT - 6, EXPRESSION_LIMIT);
    let mut expression = generate::expression(random, &alphabet, budget);
    for leaf in leaves(&alphabet, &expression) {
        expression[leaf] = Operator::Anything.word();
    }
    (alphabet, expression)
}
