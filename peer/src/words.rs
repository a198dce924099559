//! The 32-bit words of document 01 as values: the kind in bits 31..28, named fields below it, every other bit zero.
//! A word is of a kind exactly if writing what was read from it gives the same word again.

use crate::kinds;
use crate::limits::ARITY_LIMIT;
use std::fmt;

/// What an alphabet word says of its symbol.
#[derive(Clone, Copy, Debug, PartialEq, Eq)]
pub enum Entry {
    /// It takes so many children (document 01: its rank).
    Symbol(usize),
    /// It is a constant that marks a place (document 02, U8).
    Hole,
}

/// One word of an expression (document 01: a rule word).
#[derive(Clone, Copy, Debug, PartialEq, Eq)]
pub enum Operator {
    Symbol(usize),
    Empty,
    Union,
    Product(usize),
    Closure(usize),
    /// Every tree over the alphabet (document 02, U7).
    Anything,
}

/// One word of a table.
#[derive(Clone, Copy, Debug, PartialEq, Eq)]
pub enum TableWord {
    Head { states: usize, accepting: usize },
    Length(usize),
    Transition { symbol: usize, target: usize },
    Epsilon { from: usize, to: usize },
    Child(usize),
}

/// The alphabet entry of a symbol with this arity (document 01: rank).
pub fn entry_word(arity: usize) -> u32 {
    Entry::Symbol(arity).word()
}

/// The tree word of a node with this symbol (document 01: a chapter element).
pub fn node_word(symbol: usize) -> u32 {
    kinds::symbol_word(kinds::NODE, symbol)
}

impl Entry {
    pub fn word(self) -> u32 {
        match self {
            Entry::Symbol(arity) => kinds::symbol_word(kinds::ENTRY, arity),
            Entry::Hole => kinds::word(kinds::ENTRY) | kinds::HOLE,
        }
    }

    /// None for a word that is no alphabet entry.
    pub fn read(word: u32) -> Option<Entry> {
        let entry = match kinds::symbol(word) {
            0 if word & kinds::HOLE != 0 => Entry::Hole,
            arity if arity <= ARITY_LIMIT => Entry::Symbol(arity),
            _ => return None,
        };
        (entry.word() == word).then_some(entry)
    }

    pub fn arity(self) -> usize {
        match self {
            Entry::Symbol(arity) => arity,
            Entry::Hole => 0,
        }
    }
}

impl Operator {
    pub fn word(self) -> u32 {
        match self {
            Operator::Symbol(symbol) => kinds::symbol_word(kinds::SYMBOL, symbol),
            Operator::Empty => kinds::word(kinds::EMPTY),
            Operator::Union => kinds::word(kinds::UNION),
            Operator::Product(constant) => kinds::symbol_word(kinds::PRODUCT, constant),
            Operator::Closure(constant) => kinds::symbol_word(kinds::CLOSURE, constant),
            Operator::Anything => kinds::word(kinds::ANYTHING),
        }
    }

    pub fn read(word: u32) -> Option<Operator> {
        let field = kinds::symbol(word);
        let operator = match kinds::kind(word) {
            kinds::SYMBOL => Operator::Symbol(field),
            kinds::EMPTY => Operator::Empty,
            kinds::UNION => Operator::Union,
            kinds::PRODUCT => Operator::Product(field),
            kinds::CLOSURE => Operator::Closure(field),
            kinds::ANYTHING => Operator::Anything,
            _ => return None,
        };
        (operator.word() == word).then_some(operator)
    }
}

impl TableWord {
    pub fn word(self) -> u32 {
        match self {
            TableWord::Head { states, accepting } => kinds::table_word(kinds::HEAD, states, accepting),
            TableWord::Length(words) => kinds::word(kinds::LENGTH) + words as u32,
            TableWord::Transition { symbol, target } => kinds::table_word(kinds::TRANSITION, symbol, target),
            TableWord::Epsilon { from, to } => kinds::table_word(kinds::EPSILON, from, to),
            TableWord::Child(state) => kinds::table_word(kinds::CHILD, 0, state),
        }
    }

    pub fn read(word: u32) -> Option<TableWord> {
        let state = kinds::state(word);
        let above = |bits: u32| kinds::above_state(word, bits);
        let read = match kinds::kind(word) {
            kinds::HEAD => TableWord::Head {
                states: above(11),
                accepting: state,
            },
            kinds::LENGTH => TableWord::Length(kinds::length(word)),
            kinds::TRANSITION => TableWord::Transition {
                symbol: above(8),
                target: state,
            },
            kinds::EPSILON => TableWord::Epsilon {
                from: above(kinds::STATE_BITS),
                to: state,
            },
            kinds::CHILD => TableWord::Child(state),
            _ => return None,
        };
        (read.word() == word).then_some(read)
    }
}

/// The symbol of a tree word; None for a word that is no element.
pub fn read_node(word: u32) -> Option<usize> {
    let symbol = kinds::symbol(word);
    (node_word(symbol) == word).then_some(symbol)
}

/// What the alphabet says of a symbol; None for an unknown one.
fn entry(alphabet: &[u32], symbol: usize) -> Option<Entry> {
    Entry::read(*alphabet.get(symbol)?)
}

/// The arity of a symbol; None for an unknown one.
pub fn arity(alphabet: &[u32], symbol: usize) -> Option<usize> {
    entry(alphabet, symbol).map(Entry::arity)
}

pub fn is_hole(alphabet: &[u32], symbol: usize) -> bool {
    entry(alphabet, symbol) == Some(Entry::Hole)
}

/// The constants of an alphabet in symbol order; holes are among them.
pub fn constants(alphabet: &[u32]) -> Vec<usize> {
    (0..alphabet.len())
        .filter(|symbol| arity(alphabet, *symbol) == Some(0))
        .collect()
}

/// The holes of an alphabet in symbol order.
pub fn holes(alphabet: &[u32]) -> Vec<usize> {
    (0..alphabet.len())
        .filter(|symbol| is_hole(alphabet, *symbol))
        .collect()
}

/// The constants that a product or a closure may name: any where the alphabet has no hole, otherwise the
/// holes alone.
pub fn named(alphabet: &[u32]) -> Vec<usize> {
    let holes = holes(alphabet);
    if holes.is_empty() {
        return constants(alphabet);
    }
    holes
}

/// The constants that may stand in a tree: those that are no holes.
pub fn leaves(alphabet: &[u32]) -> Vec<usize> {
    let mut leaves = constants(alphabet);
    leaves.retain(|symbol| !is_hole(alphabet, *symbol));
    leaves
}

/// The arities of an alphabet's symbols.
pub fn arities(alphabet: &[u32]) -> Vec<usize> {
    alphabet
        .iter()
        .map(|word| Entry::read(*word).expect("an alphabet entry").arity())
        .collect()
}

/// Whether a hole stands in a tree of symbols.
pub fn has_hole(alphabet: &[u32], tree: &[usize]) -> bool {
    tree.iter().any(|symbol| is_hole(alphabet, *symbol))
}

/// The symbols of a tree's words.
pub fn symbols(tree: &[u32]) -> Vec<usize> {
    tree.iter()
        .map(|word| read_node(*word).expect("an element"))
        .collect()
}

/// The words of a tree of symbols.
pub fn node_words(tree: &[usize]) -> Vec<u32> {
    tree.iter().map(|symbol| node_word(*symbol)).collect()
}

/// The words of an expression.
pub fn operator_words(expression: &[Operator]) -> Vec<u32> {
    expression.iter().map(|operator| operator.word()).collect()
}

/// How many sub-expressions an expression word takes; None where the alphabet does not say.
pub fn operands(alphabet: &[u32], word: u32) -> Option<usize> {
    match Operator::read(word)? {
        Operator::Symbol(symbol) => arity(alphabet, symbol),
        Operator::Empty | Operator::Anything => Some(0),
        Operator::Union | Operator::Product(_) => Some(2),
        Operator::Closure(_) => Some(1),
    }
}

pub fn count_ones(words: &[u32]) -> u32 {
    words.iter().map(|word| word.count_ones()).sum()
}

/// Words in hexadecimal, for replaying a difference.
pub struct Hex<'a>(pub &'a [u32]);

impl fmt::Display for Hex<'_> {
    fn fmt(&self, f: &mut fmt::Formatter<'_>) -> fmt::Result {
        write!(f, "({})", self.0.len())?;
        for word in self.0 {
            write!(f, " {word:08x}")?;
        }
        Ok(())
    }
}
