//! The expressions of document 01 ("Meaning of a rule") as trees of operators. Their languages are given twice, with no
//! automaton and no state numbers: `literal` has the set of members up to a size, sentence by sentence, and `membership`
//! decides any tree; the two are compared with each other.

pub mod literal;
pub mod membership;

use crate::postfix;
use crate::words::{self, Operator};

/// A tree as its symbols in postfix order.
pub type Tree = Vec<usize>;

/// An expression as a tree of operators; the last one is the whole.
pub struct Expression {
    pub operators: Vec<Operator>,
    pub children: Vec<Vec<usize>>,
}

impl Expression {
    /// The expression that the words are; None where a word has no meaning over the alphabet or they are not one tree.
    pub fn read(alphabet: &[u32], words: &[u32]) -> Option<Expression> {
        let operators: Vec<Operator> = words
            .iter()
            .map(|word| Operator::read(*word))
            .collect::<Option<_>>()?;
        let arities: Vec<usize> = words
            .iter()
            .map(|word| words::operands(alphabet, *word))
            .collect::<Option<_>>()?;
        Some(Expression {
            operators,
            children: postfix::children(&arities)?,
        })
    }

    /// The place of the whole expression.
    pub fn whole(&self) -> usize {
        self.operators.len() - 1
    }
}
