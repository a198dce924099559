//! A table's transitions arranged for the simulations: those of each symbol together, and epsilon transitions by the
//! state they leave. Both simulations arrange them in each call, as the library does with the table it is lent.

use peer::kinds;
use peer::length_word::{table_in, LEAST_WORDS};
use peer::words::{self, TableWord};

pub struct Transition {
    pub target: usize,
    pub children: Vec<usize>,
}

pub struct Automaton {
    pub width: usize,
    pub by_symbol: Vec<Vec<Transition>>,
    pub epsilons: Vec<Vec<usize>>,
    pub arities: Vec<usize>,
}

impl Automaton {
    /// Arranges the table at the front of a slice, which is known to be well-formed.
    pub fn arrange(alphabet: &[u32], slice: &[u32]) -> Automaton {
        let arities = words::arities(alphabet);
        let table = table_in(slice).expect("a table has a length");
        let Some(TableWord::Head { states, .. }) = TableWord::read(table[0]) else {
            panic!("a table has a head");
        };
        let mut arranged = Automaton {
            width: states.div_ceil(32),
            by_symbol: (0..arities.len()).map(|_| Vec::new()).collect(),
            epsilons: vec![Vec::new(); states],
            arities,
        };
        let mut place = LEAST_WORDS;
        while place < table.len() {
            let own = TableWord::read(table[place]).expect("a table word");
            place += 1;
            match own {
                TableWord::Transition { symbol, target } => {
                    let end = place + arranged.arities[symbol];
                    let children = table[place..end].iter().map(|word| kinds::state(*word)).collect();
                    arranged.by_symbol[symbol].push(Transition { target, children });
                    place = end;
                }
                TableWord::Epsilon { from, to } => arranged.epsilons[from].push(to),
                _ => panic!("a move"),
            }
        }
        arranged
    }

    /// Document 000's Algorithm 1, Skip-Epsilon: adds what epsilon transitions reach from the states of the front, which
    /// are in the set, until there is no new state.
    pub fn skip_epsilon(&self, set: &mut [u32], front: &mut Vec<usize>) {
        while let Some(state) = front.pop() {
            for to in &self.epsilons[state] {
                if !has(set, *to) {
                    put(set, *to);
                    front.push(*to);
                }
            }
        }
    }
}

pub fn has(set: &[u32], state: usize) -> bool {
    set[state / 32] >> (state % 32) & 1 == 1
}

pub fn put(set: &mut [u32], state: usize) {
    set[state / 32] |= 1 << (state % 32);
}
