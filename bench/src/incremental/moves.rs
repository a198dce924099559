//! A table, checked and arranged once in a call: the transitions of each symbol together and the epsilon transitions of
//! each state together, in flat vectors; and the textbook node step over them.

use super::shape::Alphabet;
use peer::kinds::{self, kind, CHILD, EPSILON, HEAD, LENGTH, TRANSITION};
use peer::length_word::LEAST_WORDS;
use peer::limits::{STATE_LIMIT, SYMBOL_LIMIT, TABLE_LIMIT};

pub struct Moves {
    pub width: usize,
    /// The final state.
    pub last: u16,
    /// Where each symbol's transitions begin, one place more for the end. A transition is its target and then its
    /// children's states.
    by_symbol: [u16; SYMBOL_LIMIT + 1],
    transitions: Vec<u16>,
    /// Where each state's epsilon transitions begin, one place more for the end. Each is the state it leads to.
    by_state: Vec<u16>,
    epsilons: Vec<u16>,
}

/// The state in a word.
fn low(word: u32) -> u32 {
    kinds::state(word) as u32
}

/// All above the state: where spare bits are set, no state and no symbol is so large.
fn high(word: u32) -> u32 {
    kinds::above_state(word, kinds::FIELD_BITS - kinds::STATE_BITS) as u32
}

impl Moves {
    /// None where the table at the front of the slice is refused by 8.
    pub fn check(alphabet: &Alphabet, slice: &[u32]) -> Option<Moves> {
        let [head, length, ..] = *slice else {
            return None;
        };
        // Where spare bits are set or the kind is another, no table is so long.
        let count = (length ^ kinds::word(LENGTH)) as usize;
        if kind(head) != HEAD || count > TABLE_LIMIT {
            return None;
        }
        let words = slice.get(LEAST_WORDS..count)?;
        let states = high(head);
        if states > STATE_LIMIT as u32 || low(head) >= states {
            return None;
        }
        let mut moves = Moves {
            width: (states as usize).div_ceil(32),
            last: low(head) as u16,
            by_symbol: [0; SYMBOL_LIMIT + 1],
            transitions: Vec::new(),
            by_state: vec![0; states as usize + 1],
            epsilons: Vec::new(),
        };
        moves.count(alphabet, words, states)?;
        moves.arrange(alphabet, words);
        Some(moves)
    }

    /// Checks the words behind head and length, and leaves at each symbol and state how many words it will have.
    fn count(&mut self, alphabet: &Alphabet, words: &[u32], states: u32) -> Option<()> {
        let mut place = 0;
        while place < words.len() {
            let word = words[place];
            place += 1;
            if low(word) >= states {
                return None;
            }
            match kind(word) {
                EPSILON if high(word) < states => self.by_state[high(word) as usize] += 1,
                TRANSITION if alphabet.has(high(word)) => {
                    let end = place + alphabet.arity(high(word));
                    let children = words.get(place..end)?;
                    let is_child = |word: &u32| (word ^ kinds::word(CHILD)) < states;
                    if !children.iter().all(is_child) {
                        return None;
                    }
                    self.by_symbol[high(word) as usize] += 1 + children.len() as u16;
                    place = end;
                }
                _ => return None,
            }
        }
        Some(())
    }

    /// Turns the numbers of words into the places where they end, and then fills them from the last to the first, so
    /// that each becomes the place where they begin.
    fn arrange(&mut self, alphabet: &Alphabet, words: &[u32]) {
        self.transitions.resize(ends(&mut self.by_symbol), 0);
        self.epsilons.resize(ends(&mut self.by_state), 0);
        let mut place = 0;
        while place < words.len() {
            let word = words[place];
            if kind(word) == EPSILON {
                let at = &mut self.by_state[high(word) as usize];
                *at -= 1;
                self.epsilons[usize::from(*at)] = low(word) as u16;
                place += 1;
            } else {
                let end = place + 1 + alphabet.arity(high(word));
                let at = &mut self.by_symbol[high(word) as usize];
                *at -= (end - place) as u16;
                let own = &mut self.transitions[usize::from(*at)..][..end - place];
                for (state, word) in own.iter_mut().zip(&words[place..end]) {
                    *state = low(*word) as u16;
                }
                place = end;
            }
        }
    }

    fn transitions(&self, symbol: u32) -> &[u16] {
        let symbol = symbol as usize;
        &self.transitions[self.by_symbol[symbol].into()..self.by_symbol[symbol + 1].into()]
    }

    fn epsilons(&self, state: u16) -> &[u16] {
        let state = usize::from(state);
        &self.epsilons[self.by_state[state].into()..self.by_state[state + 1].into()]
    }

    /// Writes the state set of a node with this symbol over children with these sets. `front` is empty before and after.
    pub fn step(&self, symbol: u32, children: &[&[u32]], set: &mut [u32], front: &mut Vec<u16>) {
        set.fill(0);
        for transition in self.transitions(symbol).chunks_exact(1 + children.len()) {
            let fits = |(state, child): (&u16, &&[u32])| has(child, *state);
            if transition[1..].iter().zip(children).all(fits) && insert(set, transition[0]) {
                front.push(transition[0]);
            }
        }
        while let Some(state) = front.pop() {
            for to in self.epsilons(state) {
                if insert(set, *to) {
                    front.push(*to);
                }
            }
        }
    }
}

/// Numbers of words to the places where they end; answers where the last of them end.
fn ends(counts: &mut [u16]) -> usize {
    let mut end = 0;
    for count in counts.iter_mut() {
        end += *count;
        *count = end;
    }
    end.into()
}

pub fn has(set: &[u32], state: u16) -> bool {
    set[usize::from(state / 32)] >> (state % 32) & 1 == 1
}

/// Answers whether the state is new.
fn insert(set: &mut [u32], state: u16) -> bool {
    let word = &mut set[usize::from(state / 32)];
    let old = *word;
    *word |= 1 << (state % 32);
    *word != old
}
