//! Damaged words: single bits changed in every argument of an accepted call. On the source's example, with
//! and without holes, every bit of every word is tried, elsewhere random ones, and in every alphabet entry
//! the bit that marks a hole.

use crate::automaton;
use crate::call::{Call, Operation};
use crate::cases::examples::{self, A, B, C, D, F, G, H};
use crate::cases::holes::source_with;
use crate::cases::patterns::{Pattern, Patterns};
use crate::chance::Random;
use crate::compare::Comparison;
use crate::generate::{self, holes};
use crate::kinds::HOLE;
use crate::marks::Table;
use crate::model;
use crate::words;

/// One accepted call of each operation on this alphabet, rule and tree without holes, with so much to spare
/// in each slice: words that no rule writes, and behind the table words that are none of it.
pub fn accepted_calls(alphabet: &[u32], expression: &[u32], tree: &[u32], spare: usize) -> Vec<Call> {
    let mut table = automaton::table(alphabet, expression).expect("an expression");
    table.resize(table.len() + spare, 0x2468_ace0);
    let read = Table::read(alphabet, &table).expect("a table");
    let mut sets = model::state_sets(alphabet, &read, tree);
    let count = tree.len();
    sets.resize(sets.len() + spare * read.width(), 0x0f0f_0f0f);
    let mut chapter = tree.to_vec();
    chapter.resize(count + spare, 0x1234_5678);
    let leaf = words::node_words(&words::leaves(alphabet)[..1]);
    vec![
        Call::compile(alphabet, expression, vec![0x3c3c_3c3c; table.len()]),
        Call::run(alphabet, &table, tree, vec![0x5a5a_5a5a; sets.len()]),
        Call::list(alphabet, &table, count, &sets, vec![0x6b6b_6b6b; count + spare]),
        Call::exchange(alphabet, &table, chapter, count, sets, count / 2, &leaf),
    ]
}

pub fn compare(comparison: &mut Comparison, seed: u64, cases: u64) {
    let hole_free = words::node_words(&[A, B, F, A, G, H, F]);
    for (alphabet, tree) in [
        (examples::alphabet(), examples::tree()),
        (source_with(&[C, D]), hole_free),
    ] {
        for call in accepted_calls(&alphabet, &examples::expression(), &tree, 3) {
            every_bit(comparison, &call);
        }
    }
    comparison.random_cases("damaged words", seed, cases, |comparison, _, random| {
        some_bits(comparison, random, Patterns::over(generate::alphabet));
    });
    comparison.random_cases("damaged holes", seed, cases / 2, |comparison, _, random| {
        some_bits(comparison, random, Patterns::over(holes::mixed_alphabet));
        every_mark(comparison, random);
    });
}

/// The slices that a call reads or may read, the record among them and the empty ones left out: all but Compile's table and
/// the list.
fn arguments(call: &mut Call) -> Vec<&mut [u32]> {
    let is_compile = call.operation == Operation::Compile;
    let [alphabet, expression, table, tree, sets, replacement, _, totals] = call.slices_mut();
    let mut all = vec![alphabet, expression, tree, sets, replacement, totals];
    if !is_compile {
        all.insert(2, table);
    }
    all.retain(|words| !words.is_empty());
    all
}

pub fn every_bit(comparison: &mut Comparison, accepted: &Call) {
    let lengths: Vec<usize> = arguments(&mut accepted.clone())
        .iter()
        .map(|words| words.len())
        .collect();
    for (argument, length) in lengths.into_iter().enumerate() {
        for bit in 0..32 * length {
            let mut call = accepted.clone();
            arguments(&mut call)[argument][bit / 32] ^= 1 << (bit % 32);
            comparison.call("a changed bit is taken otherwise", &call);
        }
    }
}

/// One accepted call of each operation on a pattern that is drawn so.
fn random_calls(random: &mut Random, patterns: Patterns) -> Vec<Call> {
    let Pattern { alphabet, expression } = patterns.draw(random);
    let budget = random.between(1, 20);
    let tree = words::node_words(&generate::tree(random, &alphabet, budget));
    accepted_calls(&alphabet, &expression, &tree, 4)
}

pub fn some_bits(comparison: &mut Comparison, random: &mut Random, patterns: Patterns) {
    for mut call in random_calls(random, patterns) {
        call.node = random.below(call.count.max(1));
        for _ in 0..random.between(1, 2) {
            let mut filled = arguments(&mut call);
            let argument = random.below(filled.len());
            generate::flip(random, filled[argument]);
        }
        comparison.call("a changed bit is taken otherwise", &call);
    }
}

/// Every alphabet entry in turn as a hole, or no longer as one.
fn every_mark(comparison: &mut Comparison, random: &mut Random) {
    let patterns = [
        Patterns::over(generate::alphabet),
        Patterns::over(holes::mixed_alphabet),
    ];
    let patterns = random.pick(&patterns);
    for call in random_calls(random, patterns) {
        for symbol in 0..call.alphabet.len() {
            let mut changed = call.clone();
            changed.alphabet[symbol] ^= HOLE;
            comparison.call("an entry's mark is taken otherwise", &changed);
        }
    }
}
