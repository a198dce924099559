//! Random patterns: an alphabet with an expression over it that Compile takes.

use crate::automaton;
use crate::chance::Random;
use crate::generate::{self, anything};
use crate::limits::{EXPRESSION_LIMIT, STATE_LIMIT, TABLE_LIMIT};

/// An alphabet with an expression whose states over it are not too many, and whose table is not too long.
#[derive(Clone)]
pub struct Pattern {
    pub alphabet: Vec<u32>,
    pub expression: Vec<u32>,
}

/// A function that draws alphabets.
pub type Alphabets = fn(&mut Random) -> Vec<u32>;

/// How patterns are drawn.
#[derive(Clone, Copy)]
pub struct Patterns {
    pub alphabet: Alphabets,
    /// Draws expressions over an alphabet of at most so many words, which Compile does not refuse by 3 to 5.
    pub expression: fn(&mut Random, &[u32], usize) -> Vec<u32>,
}

impl Patterns {
    /// Expressions without `anything` over alphabets that are drawn so.
    pub const fn over(alphabet: Alphabets) -> Patterns {
        let expression = generate::expression;
        Patterns { alphabet, expression }
    }

    /// Expressions with `anything` over alphabets that are drawn so.
    pub const fn with_anything_over(alphabet: Alphabets) -> Patterns {
        let expression = anything::expression;
        Patterns { alphabet, expression }
    }

    /// Expressions with so much `anything` that their tables are long.
    pub const LONG: Patterns = Patterns {
        alphabet: anything::wide_alphabet,
        expression: anything::long_expression,
    };

    pub fn draw(self, random: &mut Random) -> Pattern {
        loop {
            let alphabet = (self.alphabet)(random);
            let budget = if random.once_in(12) {
                random.between(1, EXPRESSION_LIMIT)
            } else {
                random.between(1, 14)
            };
            let expression = (self.expression)(random, &alphabet, budget);
            if is_taken(&alphabet, &expression) {
                return Pattern { alphabet, expression };
            }
        }
    }
}

fn is_taken(alphabet: &[u32], expression: &[u32]) -> bool {
    automaton::states(alphabet, expression) <= STATE_LIMIT
        && automaton::table(alphabet, expression).is_some_and(|table| table.len() <= TABLE_LIMIT)
}

/// A pattern without holes and without `anything`.
pub fn pattern(random: &mut Random) -> Pattern {
    Patterns::over(generate::alphabet).draw(random)
}
