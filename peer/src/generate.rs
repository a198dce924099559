//! Inputs from a seed: alphabets, expressions, trees, tables and damaged words. The same numbers give the same inputs.

use crate::chance::Random;
use crate::language::Tree;
use crate::length_word::with_length_word;
use crate::limits::{ARITY_LIMIT, CONSTANT_LIMIT, STATE_LIMIT, SYMBOL_LIMIT, TABLE_LIMIT};
use crate::words::{self, Operator, TableWord};

pub mod anything;
pub mod holes;

/// An alphabet without holes: mostly small, so that symbols meet each other often; sometimes up to the
/// limits.
pub fn alphabet(random: &mut Random) -> Vec<u32> {
    let (constants, others) = if random.once_in(10) {
        let constants = random.between(1, CONSTANT_LIMIT);
        (constants, random.between(0, SYMBOL_LIMIT - constants))
    } else {
        let least = usize::from(!random.once_in(20));
        (random.between(1, 4), random.between(least, 4))
    };
    let mut arities = vec![0; constants];
    arities.extend((0..others).map(|_| random.between(1, ARITY_LIMIT)));
    random.shuffle(&mut arities);
    arities.into_iter().map(words::entry_word).collect()
}

/// Words of one tree in postfix order within a budget of words: `choose` names a word and how many children it takes,
/// at most one less than the budget it is given. The words are found root first and from right to left, then turned;
/// the next word gets what a leaf leaves of its budget.
fn grow<T>(
    random: &mut Random,
    budget: usize,
    mut choose: impl FnMut(&mut Random, usize) -> (T, usize),
) -> Vec<T> {
    let mut pending = vec![budget];
    let mut grown = Vec::new();
    let mut left = 0;
    while let Some(own) = pending.pop() {
        let own = own + left;
        let (word, arity) = choose(random, own);
        left = if arity == 0 { own - 1 } else { 0 };
        pending.extend(split(random, own - 1, arity));
        grown.push(word);
    }
    grown.reverse();
    grown
}

/// So many budgets of at least one word: in one half of the cases evenly drawn, in the other all to one child.
fn split(random: &mut Random, budget: usize, parts: usize) -> Vec<usize> {
    let mut all = vec![1; parts];
    if parts == 0 {
        return all;
    }
    let mut spare = budget - parts;
    if random.once_in(2) {
        for part in all.iter_mut().skip(1) {
            let given = random.between(0, spare);
            *part += given;
            spare -= given;
        }
    }
    let place = random.below(parts);
    all[place] += spare;
    all
}

/// An expression of at most `budget` words, which Compile does not refuse by 3 to 5.
pub fn expression(random: &mut Random, alphabet: &[u32], budget: usize) -> Vec<u32> {
    let operators = if words::holes(alphabet).is_empty() {
        operators(random, alphabet, budget)
    } else {
        holes::operators(random, alphabet, budget)
    };
    words::operator_words(&operators)
}

/// The operators of an expression. Where the alphabet has holes, these alone are named in products and
/// closures; as symbols all constants stand there.
fn operators(random: &mut Random, alphabet: &[u32], budget: usize) -> Vec<Operator> {
    let constants = words::constants(alphabet);
    let named = words::named(alphabet);
    let favored = [random.pick(&constants), random.pick(&named)];
    grow(random, budget, |random, own| {
        let constant = if random.once_in(3) {
            random.pick(&constants)
        } else {
            random.pick(&favored)
        };
        let over = if named.contains(&constant) {
            constant
        } else {
            random.pick(&named)
        };
        let symbols = symbols_within(alphabet, 1, own - 1);
        loop {
            let choice = match random.below(8) {
                0 if own == 1 && random.once_in(8) => (Operator::Empty, 0),
                1..=2 if own >= 2 => (Operator::Closure(over), 1),
                3 if own >= 3 => (Operator::Product(over), 2),
                4 if own >= 3 => (Operator::Union, 2),
                5..=6 if !symbols.is_empty() => {
                    let (symbol, arity) = random.pick(&symbols);
                    (Operator::Symbol(symbol), arity)
                }
                7 if own == 1 || random.once_in(4) => (Operator::Symbol(constant), 0),
                _ => continue,
            };
            return choice;
        }
    })
}

/// The symbols with an arity in this range, with their arities.
fn symbols_within(alphabet: &[u32], least: usize, most: usize) -> Vec<(usize, usize)> {
    (0..alphabet.len())
        .filter_map(|symbol| Some((symbol, words::arity(alphabet, symbol)?)))
        .filter(|(_, arity)| (least..=most).contains(arity))
        .collect()
}

/// A tree of at most `budget` nodes, and of nearly so many where the alphabet has symbols to reach it. It has
/// no hole, unless all constants are holes.
pub fn tree(random: &mut Random, alphabet: &[u32], budget: usize) -> Tree {
    let leaves = leaves(alphabet);
    grow(random, budget, |random, own| {
        let symbols = symbols_within(alphabet, 1, own - 1);
        if symbols.is_empty() {
            (random.pick(&leaves), 0)
        } else {
            random.pick(&symbols)
        }
    })
}

/// The constants that are no holes, or all of them where each is one.
fn leaves(alphabet: &[u32]) -> Vec<usize> {
    let leaves = words::leaves(alphabet);
    if leaves.is_empty() {
        return words::constants(alphabet);
    }
    leaves
}

/// An alphabet that has symbols with children.
pub fn alphabet_with_children(random: &mut Random) -> Vec<u32> {
    loop {
        let own = alphabet(random);
        if !symbols_within(&own, 1, ARITY_LIMIT).is_empty() {
            return own;
        }
    }
}

/// A tree of exactly this height over such an alphabet: a path from the root to a leaf, on which each next node is at any
/// place among the children, and the other children are leaves, or sometimes trees that are no higher.
pub fn high_tree(random: &mut Random, alphabet: &[u32], height: usize) -> Tree {
    let symbols = symbols_within(alphabet, 1, ARITY_LIMIT);
    let mut before: Vec<Tree> = Vec::new();
    let mut behind = vec![random.pick(&leaves(alphabet))];
    for below in 1..height {
        let (symbol, arity) = random.pick(&symbols);
        let place = random.below(arity);
        let mut parts: Vec<Tree> = (1..arity)
            .map(|_| {
                // No tree is higher than it has nodes.
                let budget = if random.once_in(16) { below.min(5) } else { 1 };
                tree(random, alphabet, budget)
            })
            .collect();
        behind.extend(parts.split_off(place).concat());
        behind.push(symbol);
        before.push(parts.concat());
    }
    before.into_iter().rev().flatten().chain(behind).collect()
}

/// A well-formed table that no expression needs to have: transitions and epsilon transitions at random.
pub fn table(random: &mut Random, alphabet: &[u32]) -> Vec<u32> {
    let states = match random.below(6) {
        0 => random.between(1, STATE_LIMIT),
        1 => random.pick(&[31, 32, 33, 63, 64, 65, STATE_LIMIT - 1, STATE_LIMIT]),
        _ => random.between(1, 12),
    };
    let mut table = vec![TableWord::Head {
        states,
        accepting: random.below(states),
    }];
    for _ in 0..random.below(40) {
        if random.once_in(2) {
            table.push(TableWord::Epsilon {
                from: random.below(states),
                to: random.below(states),
            });
        } else {
            let symbol = random.below(alphabet.len());
            table.push(TableWord::Transition {
                symbol,
                target: random.below(states),
            });
            for _ in 0..words::arity(alphabet, symbol).unwrap_or(0) {
                table.push(TableWord::Child(random.below(states)));
            }
        }
    }
    with_length_word(&table)
}

/// Words that follow a table in its slice: none, a few, or so many that the slice is longer than any table.
pub fn behind(random: &mut Random) -> Vec<u32> {
    let length = match random.below(8) {
        0..=2 => 0,
        3..=6 => random.between(1, 9),
        _ => random.between(TABLE_LIMIT, 2 * TABLE_LIMIT),
    };
    random.words(length)
}

/// Changes one bit of one word.
pub fn flip(random: &mut Random, words: &mut [u32]) {
    if !words.is_empty() {
        let place = random.below(words.len());
        words[place] ^= 1 << random.below(32);
    }
}
