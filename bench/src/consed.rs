//! A strong simulation: equal state sets are kept once, each with a number, and what a symbol makes of its children's
//! sets is looked up by symbol and numbers. A set is worked out only for a new combination, with the epsilon closure of
//! each target at hand. The marks written are the same.

use crate::automaton::{has, put, Automaton};
use peer::kinds;
use peer::limits::{ARITY_LIMIT, NODE_LIMIT, SYMBOL_LIMIT};
use peer::words::count_ones;
use std::collections::HashMap;
use std::hash::{BuildHasherDefault, Hasher};

/// Multiplies and turns; short keys need no more.
#[derive(Default)]
struct Fold(u64);

impl Hasher for Fold {
    fn finish(&self) -> u64 {
        self.0 ^ (self.0 >> 32)
    }

    fn write(&mut self, bytes: &[u8]) {
        for four in bytes.chunks(4) {
            self.write_u32(
                four.iter()
                    .rev()
                    .fold(0, |word, byte| word << 8 | u32::from(*byte)),
            );
        }
    }

    fn write_u32(&mut self, word: u32) {
        self.0 = (self.0.rotate_left(5) ^ u64::from(word)).wrapping_mul(0x517c_c1b7_2722_0a95);
    }

    fn write_u64(&mut self, word: u64) {
        self.0 = (self.0.rotate_left(5) ^ word).wrapping_mul(0x517c_c1b7_2722_0a95);
    }

    fn write_usize(&mut self, word: usize) {
        self.write_u64(word as u64);
    }
}

type Map<K> = HashMap<K, u32, BuildHasherDefault<Fold>>;

/// The distinct sets found so far.
struct Sets {
    width: usize,
    words: Vec<u32>,
    ones: Vec<u32>,
    numbers: Map<Box<[u32]>>,
}

impl Sets {
    fn get(&self, number: u32) -> &[u32] {
        &self.words[number as usize * self.width..][..self.width]
    }

    /// The number of a set, a new one where it was not met before.
    fn number(&mut self, set: &[u32]) -> u32 {
        if let Some(number) = self.numbers.get(set) {
            return *number;
        }
        let number = self.ones.len() as u32;
        self.words.extend_from_slice(set);
        self.ones.push(count_ones(set));
        self.numbers.insert(set.into(), number);
        number
    }
}

/// A transition with the states that its target leads to.
struct Step {
    children: Vec<usize>,
    closure: Vec<u32>,
}

/// A symbol and its children's set numbers, all counted from 1, so that keys of different lengths differ. A tree has no
/// more sets than nodes.
type Key = u64;

/// The bits of a set number.
const NUMBER_BITS: u32 = NODE_LIMIT.ilog2() + 1;

const _: () = assert!(SYMBOL_LIMIT.ilog2() + 1 + ARITY_LIMIT as u32 * NUMBER_BITS <= Key::BITS);

/// Marks a tree that is known to be well-formed; answers the number of marked states.
pub fn run(alphabet: &[u32], table: &[u32], tree: &[u32], sets: &mut [u32]) -> u32 {
    let automaton = Automaton::arrange(alphabet, table);
    let steps = closures(&automaton);
    let width = automaton.width;
    let mut known = Sets {
        width,
        words: Vec::new(),
        ones: Vec::new(),
        numbers: Map::default(),
    };
    let mut memo: Map<Key> = Map::default();
    let mut roots: Vec<u32> = Vec::new();
    let mut fresh = vec![0; width];
    let mut cells = 0;
    for (word, own) in tree.iter().zip(sets.chunks_mut(width)) {
        let symbol = kinds::symbol(*word);
        let first = roots.len() - automaton.arities[symbol];
        let key = roots[first..].iter().fold(symbol as Key + 1, |key, child| {
            key << NUMBER_BITS | (Key::from(*child) + 1)
        });
        let number = match memo.get(&key) {
            Some(number) => *number,
            None => {
                work_out(&steps[symbol], &roots[first..], &known, &mut fresh);
                let number = known.number(&fresh);
                memo.insert(key, number);
                number
            }
        };
        own.copy_from_slice(known.get(number));
        cells += known.ones[number as usize];
        roots.truncate(first);
        roots.push(number);
    }
    cells
}

fn work_out(steps: &[Step], children: &[u32], known: &Sets, set: &mut [u32]) {
    set.fill(0);
    for step in steps {
        let fits = |(state, child): (&usize, &u32)| has(known.get(*child), *state);
        if step.children.iter().zip(children).all(fits) {
            for (word, more) in set.iter_mut().zip(&step.closure) {
                *word |= more;
            }
        }
    }
}

/// Every symbol's transitions with the closures of their targets.
fn closures(automaton: &Automaton) -> Vec<Vec<Step>> {
    let closed = |target: usize| {
        let mut closure = vec![0; automaton.width];
        put(&mut closure, target);
        automaton.skip_epsilon(&mut closure, &mut vec![target]);
        closure
    };
    automaton
        .by_symbol
        .iter()
        .map(|own| {
            own.iter()
                .map(|transition| Step {
                    children: transition.children.clone(),
                    closure: closed(transition.target),
                })
                .collect()
        })
        .collect()
}
