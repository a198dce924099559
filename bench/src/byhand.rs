//! A table that no rule compiles to: many targets, of which each leads into one long chain of empty moves, and a chapter in
//! which almost every step is new. A matcher that works out a closure for each target at each node is slow here.

use peer::length_word::with_length_word;
use peer::words::{entry_word, TableWord};

const CONSTANTS: usize = 8;
/// The symbols behind the constants: one of rank 1, one of rank 2.
const UNARY: usize = CONSTANTS;
const BINARY: usize = CONSTANTS + 1;
/// The unary symbol turns each target into the next of its cycle; cycles of these lengths together come round late.
const CYCLES: [usize; 13] = [2, 3, 5, 7, 11, 13, 17, 19, 23, 29, 31, 37, 41];
const CHAIN: usize = 500;

/// Alphabet and table.
pub fn table() -> (Vec<u32>, Vec<u32>) {
    let mut alphabet = vec![entry_word(0); CONSTANTS];
    alphabet.extend([entry_word(1), entry_word(2)]);
    let targets: usize = CYCLES.iter().sum();
    let states = targets + CHAIN;
    let mut table = vec![TableWord::Head {
        states,
        accepting: states - 1,
    }];
    for constant in 0..CONSTANTS {
        let own = (0..targets).filter(|target| target % 4 == constant % 4 && target % 3 != constant / 4);
        table.extend(own.map(|target| TableWord::Transition {
            symbol: constant,
            target,
        }));
    }
    let mut first = 0;
    for cycle in CYCLES {
        for place in 0..cycle {
            table.push(TableWord::Transition {
                symbol: UNARY,
                target: first + (place + 1) % cycle,
            });
            table.push(TableWord::Child(first + place));
        }
        first += cycle;
    }
    table.extend((0..targets).map(|from| TableWord::Epsilon { from, to: targets }));
    table.extend((targets..states - 1).map(|from| TableWord::Epsilon { from, to: from + 1 }));
    (alphabet, with_length_word(&table))
}

/// One chain of the unary symbol over each constant, joined by the binary one. The binary nodes stand above each other: a chain is
/// shorter by as many, so that the chapter is at most 512 high.
pub fn chains(_: &[u32], nodes: usize) -> Vec<usize> {
    let long = nodes / CONSTANTS - 8;
    let mut tree = Vec::new();
    for constant in 0..CONSTANTS {
        tree.push(constant);
        tree.extend(vec![UNARY; long]);
        if constant > 0 {
            tree.push(BINARY);
        }
    }
    tree
}
