//! Document 01's "Numbered automaton": the table words of an expression. The epsilon transitions of every word are listed
//! as the document names them and only then sorted, so nothing here depends on an order of writing. Document 02's U1 adds
//! the length word, and its U7 a word that has entries and takes no parts.

use crate::language::Expression;
use crate::length_word::with_length_word;
use crate::words::{self, Operator, TableWord};
use std::collections::BTreeMap;

/// The states of one expression word: its exit, and its entries by constant.
struct Ends {
    exit: usize,
    entries: BTreeMap<usize, usize>,
}

/// How many states the expression words take: a constant or empty word takes one, any other its exit and its entries.
pub fn states(alphabet: &[u32], expression: &[u32]) -> usize {
    let constants = words::constants(alphabet).len();
    expression
        .iter()
        .map(|word| {
            if has_one_state(alphabet, *word) {
                1
            } else {
                1 + constants
            }
        })
        .sum()
}

fn has_one_state(alphabet: &[u32], word: u32) -> bool {
    match Operator::read(word) {
        Some(Operator::Symbol(symbol)) => words::arity(alphabet, symbol) == Some(0),
        Some(Operator::Empty) => true,
        _ => false,
    }
}

/// The table words of an expression; None where the words are not one expression.
pub fn table(alphabet: &[u32], words: &[u32]) -> Option<Vec<u32>> {
    Some(with_length_word(&parts(alphabet, words)?.concat()))
}

/// The table words but for the length word in parts: the head with the constants' transitions, and then those of each
/// expression word.
pub fn parts(alphabet: &[u32], words: &[u32]) -> Option<Vec<Vec<TableWord>>> {
    let expression = Expression::read(alphabet, words)?;
    let ends = number(alphabet, &expression);
    let last = ends.last()?;
    let mut start = vec![TableWord::Head {
        states: states(alphabet, words),
        accepting: last.exit,
    }];
    for (symbol, target) in &last.entries {
        start.push(TableWord::Transition {
            symbol: *symbol,
            target: *target,
        });
    }
    let of_words = (0..words.len()).map(|place| transitions(alphabet, &expression, &ends, place));
    Some([start].into_iter().chain(of_words).collect())
}

/// Consecutive states from 0: the exit, then one entry for each constant, unless the word is a constant or empty.
fn number(alphabet: &[u32], expression: &Expression) -> Vec<Ends> {
    let mut next = 0;
    let mut fresh = || {
        next += 1;
        next - 1
    };
    let mut all = Vec::new();
    for (operator, children) in expression.operators.iter().zip(&expression.children) {
        let exit = fresh();
        let entries = match operator {
            Operator::Empty => BTreeMap::new(),
            Operator::Symbol(constant) if children.is_empty() => BTreeMap::from([(*constant, exit)]),
            _ => words::constants(alphabet)
                .into_iter()
                .map(|constant| (constant, fresh()))
                .collect(),
        };
        all.push(Ends { exit, entries });
    }
    all
}

/// The symbol transitions and the sorted epsilon transitions of one expression word.
fn transitions(alphabet: &[u32], expression: &Expression, ends: &[Ends], place: usize) -> Vec<TableWord> {
    let own = &ends[place];
    let parts: Vec<&Ends> = expression.children[place]
        .iter()
        .map(|child| &ends[*child])
        .collect();
    let mut written = Vec::new();
    let mut epsilons: Vec<(usize, usize)> = Vec::new();
    match expression.operators[place] {
        Operator::Empty => {}
        Operator::Symbol(symbol) => {
            let exits: Vec<usize> = parts.iter().map(|part| part.exit).collect();
            if !exits.is_empty() {
                written.extend(symbol_transition(symbol, &exits, own.exit));
            }
            for part in &parts {
                epsilons.extend(entries_to(own, part, None));
            }
        }
        Operator::Union => {
            for part in &parts {
                epsilons.extend(entries_to(own, part, None));
                epsilons.push((part.exit, own.exit));
            }
        }
        Operator::Product(constant) => {
            let (first, second) = (parts[0], parts[1]);
            epsilons.extend(entries_to(own, second, None));
            epsilons.extend(entries_to(own, first, Some(constant)));
            epsilons.extend(first.entries.get(&constant).map(|to| (second.exit, *to)));
            epsilons.push((first.exit, own.exit));
        }
        Operator::Closure(constant) => {
            let inner = parts[0];
            epsilons.extend(entries_to(own, inner, None));
            epsilons.extend(own.entries.get(&constant).map(|from| (*from, own.exit)));
            epsilons.extend(inner.entries.get(&constant).map(|to| (inner.exit, *to)));
            epsilons.push((inner.exit, own.exit));
        }
        Operator::Anything => {
            for symbol in 0..alphabet.len() {
                let arity = words::arity(alphabet, symbol).unwrap_or(0);
                if arity > 0 {
                    written.extend(symbol_transition(symbol, &vec![own.exit; arity], own.exit));
                }
            }
            epsilons.extend(own.entries.values().map(|entry| (*entry, own.exit)));
        }
    }
    epsilons.sort();
    written.extend(
        epsilons
            .into_iter()
            .map(|(from, to)| TableWord::Epsilon { from, to }),
    );
    written
}

/// The transition on a symbol from these states of its children, in order.
fn symbol_transition(symbol: usize, children: &[usize], target: usize) -> Vec<TableWord> {
    let from = children.iter().map(|state| TableWord::Child(*state));
    [TableWord::Transition { symbol, target }]
        .into_iter()
        .chain(from)
        .collect()
}

/// Each entry to the same constant's entry of the part, where there is one, but for one constant.
fn entries_to(own: &Ends, part: &Ends, but: Option<usize>) -> Vec<(usize, usize)> {
    own.entries
        .iter()
        .filter(|(constant, _)| Some(**constant) != but)
        .filter_map(|(constant, from)| part.entries.get(constant).map(|to| (*from, *to)))
        .collect()
}
