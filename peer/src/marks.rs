//! Document 01's "Marks": the set of states each subtree reaches, as the smallest set closed under the table's
//! transitions, found by adding states until nothing new is found; and the words such a set is written in.

use crate::length_word::table_in;
use crate::limits::STATE_LIMIT;
use crate::postfix;
use crate::words::{self, TableWord};

/// A table's transitions, and which state accepts (document 01: the final state).
pub struct Table {
    pub states: usize,
    pub accepting: usize,
    pub transitions: Vec<(usize, usize, Vec<usize>)>,
    pub epsilons: Vec<(usize, usize)>,
}

/// Which states are in a set, by state number.
pub type StateSet = Vec<bool>;

impl Table {
    /// The table at the front of a slice; None where documents 01 and 02 refuse it by 8.
    pub fn read(alphabet: &[u32], slice: &[u32]) -> Option<Table> {
        let [head, _, moves @ ..] = table_in(slice)? else {
            return None;
        };
        let TableWord::Head { states, accepting } = TableWord::read(*head)? else {
            return None;
        };
        if states > STATE_LIMIT || accepting >= states {
            return None;
        }
        let mut table = Table {
            states,
            accepting,
            transitions: Vec::new(),
            epsilons: Vec::new(),
        };
        let mut rest = moves.iter();
        while let Some(word) = rest.next() {
            match TableWord::read(*word)? {
                TableWord::Transition { symbol, target } => {
                    let mut children = Vec::new();
                    for _ in 0..words::arity(alphabet, symbol)? {
                        let TableWord::Child(state) = TableWord::read(*rest.next()?)? else {
                            return None;
                        };
                        children.push(state);
                    }
                    table.transitions.push((symbol, target, children));
                }
                TableWord::Epsilon { from, to } => table.epsilons.push((from, to)),
                TableWord::Head { .. } | TableWord::Length(_) | TableWord::Child(_) => return None,
            }
        }
        table.names_no_missing_state().then_some(table)
    }

    fn names_no_missing_state(&self) -> bool {
        let known = |state: &usize| *state < self.states;
        self.transitions
            .iter()
            .all(|(_, target, children)| known(target) && children.iter().all(known))
            && self.epsilons.iter().all(|(from, to)| known(from) && known(to))
    }

    /// How many words a state set takes (document 01: S).
    pub fn width(&self) -> usize {
        self.states.div_ceil(32)
    }

    /// The states that a node with this symbol over children with these sets reaches.
    pub fn reached(&self, symbol: usize, children: &[&StateSet]) -> StateSet {
        let mut set = vec![false; self.states];
        for (own, target, states) in &self.transitions {
            let fits = |(state, child): (&usize, &&StateSet)| child[*state];
            if *own == symbol && states.iter().zip(children).all(fits) {
                set[*target] = true;
            }
        }
        loop {
            let mut grown = false;
            for (from, to) in &self.epsilons {
                if set[*from] && !set[*to] {
                    set[*to] = true;
                    grown = true;
                }
            }
            if !grown {
                return set;
            }
        }
    }

    /// The state sets of all nodes of a tree of symbols.
    pub fn reached_by_all(&self, tree: &[usize], arities: &[usize]) -> Vec<StateSet> {
        let mut sets: Vec<StateSet> = Vec::with_capacity(tree.len());
        for (symbol, children) in tree.iter().zip(postfix::tree_children(tree, arities)) {
            let below: Vec<&StateSet> = children.iter().map(|child| &sets[*child]).collect();
            let set = self.reached(*symbol, &below);
            sets.push(set);
        }
        sets
    }

    /// State s is bit s mod 32 of word s / 32; bits beyond the last state are zero.
    pub fn set_words(&self, set: &StateSet) -> Vec<u32> {
        let bit = |word: usize, bit: usize| u32::from(set.get(32 * word + bit) == Some(&true)) << bit;
        (0..self.width())
            .map(|word| (0..32).map(|place| bit(word, place)).sum())
            .collect()
    }

    /// The states that stored words mark; bits beyond the last state have no effect.
    pub fn stored_set(&self, words: &[u32]) -> StateSet {
        (0..self.states)
            .map(|state| words[state / 32] >> (state % 32) & 1 == 1)
            .collect()
    }

    /// Whether stored words mark the final state (document 01: a hit).
    pub fn is_match(&self, words: &[u32]) -> bool {
        words[self.accepting / 32] >> (self.accepting % 32) & 1 == 1
    }
}
