//! Document 02's U8: bit 8 of a constant's alphabet word marks a hole. Alphabets with holes at all places,
//! the bit in every entry with every arity and spare bit beside it, how many constants there are, and trees
//! over all of these alphabets.

use crate::call::Call;
use crate::cases::examples::{self, A, B, C, D, F, G, H};
use crate::cases::in_slices::source;
use crate::cases::limits::expect;
use crate::compare::Comparison;
use crate::kinds::{FIELD_BITS, HOLE};
use crate::length_word::with_length_word;
use crate::limits::{CONSTANT_LIMIT, SYMBOL_LIMIT};
use crate::refusals::Condition;
use crate::words::{self, entry_word, node_word, node_words, Entry, Operator, TableWord};

/// A hole in the chapter: Run's condition, and Exchange's of the used chapter.
pub const HOLE_IN_CHAPTER: Condition = Condition::first(26);

/// A hole in an exchange's replacement.
pub const HOLE_IN_REPLACEMENT: Condition = Condition::second(26);

pub fn compare(comparison: &mut Comparison) {
    entries(comparison);
    pairs(comparison);
    counts(comparison);
    trees(comparison);
}

/// The source's alphabet with these constants as holes.
pub fn source_with(holes: &[usize]) -> Vec<u32> {
    let mut alphabet = examples::alphabet();
    for hole in holes {
        alphabet[*hole] |= HOLE;
    }
    alphabet
}

/// Every choice of holes among the source's constants: none, each alone, and so on to all of them.
pub fn choices() -> Vec<Vec<usize>> {
    let choice = |bits: u32| {
        [A, B, C, D]
            .into_iter()
            .filter(move |symbol| bits >> symbol & 1 == 1)
    };
    (0..16).map(|bits| choice(bits).collect()).collect()
}

/// One call of each operation over an alphabet, in which no symbol stands but this constant.
fn calls(alphabet: &[u32], leaf: usize) -> [Call; 4] {
    let table = with_length_word(&[
        TableWord::Head {
            states: 1,
            accepting: 0,
        },
        TableWord::Transition {
            symbol: leaf,
            target: 0,
        },
    ]);
    let tree = [node_word(leaf)];
    [
        Call::compile(alphabet, &[Operator::Symbol(leaf).word()], vec![7; 4]),
        Call::run(alphabet, &table, &tree, vec![7; 2]),
        Call::list(alphabet, &table, 1, &[1], vec![7; 2]),
        Call::exchange(alphabet, &table, tree.to_vec(), 1, vec![7; 2], 0, &tree),
    ]
}

/// Expects each operation to refuse the alphabet by this number. By 0 it is an alphabet: then the constant
/// may stand in a rule, and in a tree unless it is a hole.
fn expect_alphabet(comparison: &mut Comparison, wrong: &str, alphabet: &[u32], leaf: usize, number: u32) {
    let in_tree = match number {
        0 if words::is_hole(alphabet, leaf) => HOLE_IN_CHAPTER.number,
        _ => number,
    };
    let numbers = [number, in_tree, number, in_tree];
    for (call, number) in calls(alphabet, leaf).iter().zip(numbers) {
        expect(comparison, wrong, call, number);
    }
}

/// Every entry of an alphabet in turn with the bit and each arity, alone and with each other spare bit: with
/// arity 0 and no other bit it is a hole, and anything else is no entry.
fn entries(comparison: &mut Comparison) {
    let wrong = "an entry with a hole's bit is taken otherwise";
    let mut longest = vec![entry_word(0); CONSTANT_LIMIT];
    longest.resize(SYMBOL_LIMIT, entry_word(1));
    for (alphabet, bits) in [
        (examples::alphabet(), (9..FIELD_BITS).collect()),
        (longest, vec![9, 27]),
    ] {
        let spare_bits: Vec<u32> = bits.iter().map(|bit| 1 << bit).chain([0]).collect();
        for place in 0..alphabet.len() {
            let leaf = usize::from(place == 0);
            for arity in [0, 1, 2, 3, 4, 5, 255] {
                for spare in &spare_bits {
                    let mut marked = alphabet.clone();
                    marked[place] = entry_word(arity) | HOLE | spare;
                    let number = match words::constants(&marked).len() {
                        _ if arity > 0 || *spare > 0 => 1,
                        constants if constants > CONSTANT_LIMIT => 2,
                        _ => 0,
                    };
                    expect_alphabet(comparison, wrong, &marked, leaf, number);
                }
            }
        }
    }
}

/// The bit in every two entries of the source's alphabet: both must be constants.
fn pairs(comparison: &mut Comparison) {
    let wrong = "two entries with a hole's bit are taken otherwise";
    for second in 0..=H {
        for first in 0..second {
            let marked = source_with(&[first, second]);
            let number = if second <= D { 0 } else { 1 };
            for leaf in [A, B, C, D] {
                expect_alphabet(comparison, wrong, &marked, leaf, number);
            }
        }
    }
}

/// A hole is a constant: it counts among the most that there may be, and one is enough.
fn counts(comparison: &mut Comparison) {
    const MOST: usize = CONSTANT_LIMIT;
    // holes, other constants, other symbols, number
    let lengths = [
        (1, 0, 0, 0),
        (1, 0, 3, 0),
        (0, 0, 3, 2),
        (1, 0, SYMBOL_LIMIT - 1, 0),
        (2, 0, 1, 0),
        (MOST - 1, 0, 1, 0),
        (MOST, 0, 0, 0),
        (MOST, 0, SYMBOL_LIMIT - MOST, 0),
        (MOST + 1, 0, 0, 2),
        (MOST + 1, 0, SYMBOL_LIMIT - MOST - 1, 2),
        (SYMBOL_LIMIT, 0, 0, 2),
        (SYMBOL_LIMIT + 1, 0, 0, 1),
        (1, MOST - 1, 2, 0),
        (1, MOST, 2, 2),
        (MOST - 1, 1, 2, 0),
        (MOST, 1, 2, 2),
        (MOST / 2, MOST / 2, 9, 0),
        (MOST / 2, MOST / 2 + 1, 9, 2),
        (MOST / 2 + 1, MOST / 2, 9, 2),
    ];
    for (holes, constants, others, number) in lengths {
        let mut alphabet = vec![Entry::Hole.word(); holes];
        alphabet.extend(vec![entry_word(0); constants]);
        alphabet.extend(vec![entry_word(1); others]);
        for _ in 0..2 {
            let leaf = words::leaves(&alphabet).first().copied();
            let leaf = leaf.or(words::holes(&alphabet).first().copied()).unwrap_or(0);
            let wrong = "holes are counted otherwise";
            expect_alphabet(comparison, wrong, &alphabet, leaf, number);
            alphabet.reverse();
        }
    }
}

/// Trees of the source's shape with each constant at each leaf, over each choice of holes: in Run, as the
/// used tree of an Exchange, and as its replacement.
fn trees(comparison: &mut Comparison) {
    let wrong = "a hole in a tree is taken otherwise";
    let table = source();
    for holes in choices() {
        let alphabet = source_with(&holes);
        let leaf = [A, B, C, D].into_iter().find(|symbol| !holes.contains(symbol));
        for leaves in 0..64 {
            let [first, second, third] = [leaves / 16, leaves / 4 % 4, leaves % 4];
            let tree = node_words(&[first, second, F, third, G, H, F]);
            let is_refused = [first, second, third].iter().any(|symbol| holes.contains(symbol));
            let number = if is_refused { 26 } else { 0 };
            let run = Call::run(&alphabet, &table, &tree, vec![7; 7]);
            expect(comparison, wrong, &run, number);
            // Where all constants are holes, no other tree can be used.
            let Some(leaf) = leaf else {
                continue;
            };
            let other = [node_word(leaf)];
            for (used, replacement) in [(&tree[..], &other[..]), (&other[..], &tree[..])] {
                let mut slice = used.to_vec();
                slice.resize(7, node_word(0));
                let node = leaves % used.len();
                let sets = vec![7; 7];
                let call = Call::exchange(&alphabet, &table, slice, used.len(), sets, node, replacement);
                expect(comparison, wrong, &call, number);
            }
        }
    }
}
