//! Document 02's U7: tables with more words than any rule without `anything` has, up to the most, in Run, List and
//! Exchange: as Compile leaves them, with words behind them, with changed bits, and with one word too many.

use crate::automaton;
use crate::call::{Call, Operation};
use crate::cases::aimed;
use crate::cases::damage::accepted_calls;
use crate::cases::in_slices::{in_slice, same_as_alone, users, LONG, MOVE};
use crate::cases::limits::{expect, run_and_list};
use crate::cases::patterns::Pattern;
use crate::chance::Random;
use crate::compare::Comparison;
use crate::generate;
use crate::language::membership::Membership;
use crate::language::Expression;
use crate::length_word::{say, table_in};
use crate::limits::{COMPILED_LIMIT, SET_LIMIT, TABLE_LIMIT};
use crate::marks::Table;
use crate::words::{self, node_words, TableWord};

pub fn compare(comparison: &mut Comparison) {
    for words in [
        COMPILED_LIMIT,
        COMPILED_LIMIT + 1,
        1500,
        1999,
        TABLE_LIMIT - 1,
        TABLE_LIMIT,
    ] {
        for (case, own) in some_of(words).iter().enumerate() {
            let mut random = Random::of_case("long tables", words as u64, case as u64);
            in_use(comparison, &mut random, own);
        }
    }
    too_long(comparison);
}

/// Rules with tables of this many words, of few states and of the most.
fn some_of(words: usize) -> Vec<Pattern> {
    let mut all = aimed::patterns(words, 3);
    all.extend(aimed::with_most_states(words).into_iter().take(1));
    all
}

fn in_use(comparison: &mut Comparison, random: &mut Random, own: &Pattern) {
    let Pattern { alphabet, expression } = own;
    let wrong = "a rule with a long table has another";
    let length = TABLE_LIMIT + random.below(9);
    let call = Call::compile(alphabet, expression, random.words(length));
    let compiled = comparison.call(wrong, &call);
    let table = compiled.table();
    hits(comparison, random, own, table);
    behind(comparison, alphabet, table, &compiled.after.table);
    changed(comparison, random, own);
}

/// The hits are those of the language.
fn hits(comparison: &mut Comparison, random: &mut Random, own: &Pattern, table: &[u32]) {
    let Pattern { alphabet, expression } = own;
    let read = Expression::read(alphabet, expression).expect("an expression");
    let arities = words::arities(alphabet);
    let automaton = Table::read(alphabet, table).expect("a table");
    for nodes in [1, 12, 80] {
        let tree = generate::tree(random, alphabet, nodes);
        run_and_list(comparison, alphabet, table, &node_words(&tree));
        let reached = automaton.reached_by_all(&tree, &arities);
        let hits: Vec<bool> = reached.iter().map(|set| set[automaton.accepting]).collect();
        let in_language = Membership::new(&read, &arities).subtrees(&tree);
        comparison.check(
            "a long table has other hits than the language",
            hits == in_language,
            || words::Hex(expression).to_string(),
        );
    }
}

/// Words behind the table, and what Compile left there.
fn behind(comparison: &mut Comparison, alphabet: &[u32], table: &[u32], left: &[u32]) {
    let wrong = "what follows a long table is not ignored";
    same_as_alone(comparison, wrong, alphabet, table, left);
    for (length, word) in [
        (table.len() + 1, MOVE),
        (LONG, TableWord::Transition { symbol: 0, target: 0 }),
    ] {
        let slice = in_slice(table, length, word);
        same_as_alone(comparison, wrong, alphabet, table, &slice);
    }
}

/// Single bits changed, in the head, the length word, the last words and anywhere; and every count around the true one.
fn changed(comparison: &mut Comparison, random: &mut Random, own: &Pattern) {
    let wrong = "a changed bit of a long table is taken otherwise";
    let tree = node_words(&generate::tree(random, &own.alphabet, 9));
    let mut calls = accepted_calls(&own.alphabet, &own.expression, &tree, 1);
    calls.retain(|call| call.operation != Operation::Compile);
    for call in calls {
        let words = table_in(&call.table).map_or(0, <[u32]>::len);
        for turn in 0..24 {
            let mut other = call.clone();
            let place = match turn {
                0..=3 => random.below(2),
                4..=9 => words - 1 - random.below(6),
                _ => random.below(words),
            };
            other.table[place] ^= 1 << random.below(32);
            comparison.call(wrong, &other);
        }
        for count in [words - 2, words - 1, words + 1, words + 2] {
            let mut other = call.clone();
            say(&mut other.table, count);
            comparison.call(wrong, &other);
        }
    }
}

/// Tables that Compile refuses by 25 are refused by 8.
fn too_long(comparison: &mut Comparison) {
    let wrong = "a table over the most words is taken";
    for words in [TABLE_LIMIT + 1, 3000, 4095] {
        for Pattern { alphabet, expression } in aimed::patterns(words, 4) {
            let table = automaton::table(&alphabet, &expression).expect("an expression");
            for slice in [table.clone(), in_slice(&table, LONG, MOVE)] {
                for call in users(&alphabet, &slice, SET_LIMIT) {
                    expect(comparison, wrong, &call, 8);
                }
            }
        }
    }
}
