//! Document 02's U1: what is answered by 8. The length word's count at each limit and everywhere else, its bits and the
//! head's, a length word that is missing and one too many.

use crate::cases::examples;
use crate::cases::in_slices::{in_slice, same_as_alone, source, users, LONG, MOVE};
use crate::cases::limits::expect;
use crate::compare::Comparison;
use crate::kinds::{self, CHILD, LENGTH};
use crate::length_word::{say, LEAST_WORDS};
use crate::limits::TABLE_LIMIT;
use crate::words::TableWord;

pub fn compare(comparison: &mut Comparison) {
    counts(comparison);
    every_count(comparison);
    damaged(comparison);
    missing(comparison);
    second(comparison);
}

/// Expects this number of Run, List and Exchange with this table slice over the source's alphabet.
fn expect_all(comparison: &mut Comparison, wrong: &str, slice: &[u32], number: u32) {
    for call in users(&examples::alphabet(), slice, 1) {
        expect(comparison, wrong, &call, number);
    }
}

/// Counts at each limit and one beyond, in slices of all lengths: under 2, over 2,048, over the slice, and one off the true
/// count, which takes a move less or one more.
fn counts(comparison: &mut Comparison) {
    let table = source();
    let own = table.len();
    for length in [own, own + 1, TABLE_LIMIT - 1, TABLE_LIMIT, TABLE_LIMIT + 1, LONG] {
        let mut counts = vec![0, 1, LEAST_WORDS, own - 1, own, own + 1];
        counts.extend([length - 1, length, length + 1]);
        counts.extend([TABLE_LIMIT - 1, TABLE_LIMIT, TABLE_LIMIT + 1, 4095]);
        counts.retain(|count| *count <= 4095);
        for count in counts {
            let mut slice = in_slice(&table, length, MOVE);
            say(&mut slice, count);
            let is_within = (2..=2048).contains(&count) && count <= length;
            let number = if is_within { 0 } else { 8 };
            expect_all(comparison, "a table's count is judged otherwise", &slice, number);
        }
    }
}

/// Every count there is, in a slice that has more words: a table that ends before a child state has a move without its
/// parts, though they follow in the slice.
fn every_count(comparison: &mut Comparison) {
    const COUNTS: usize = 1 << kinds::LENGTH_BITS;
    let mut slice = in_slice(&source(), COUNTS, MOVE);
    for count in 0..COUNTS {
        say(&mut slice, count);
        let is_cut = kinds::kind(slice[count]) == CHILD;
        let is_within = (2..=2048).contains(&count) && !is_cut;
        let [run, ..] = users(&examples::alphabet(), &slice, 1);
        let number = if is_within { 0 } else { 8 };
        expect(comparison, "some count is judged otherwise", &run, number);
    }
}

/// Every single bit of the head and of the length word changed, in a slice that ends with the table and in a long one; and
/// each spare bit of the length word set.
fn damaged(comparison: &mut Comparison) {
    let table = source();
    for slice in [table.clone(), in_slice(&table, LONG, MOVE)] {
        for bit in 0..2 * u32::BITS {
            let mut changed = slice.clone();
            changed[(bit / u32::BITS) as usize] ^= 1 << (bit % u32::BITS);
            for call in users(&examples::alphabet(), &changed, 1) {
                comparison.call("a changed bit of head or length is taken otherwise", &call);
            }
        }
        for bit in kinds::LENGTH_BITS..kinds::FIELD_BITS {
            let mut changed = slice.clone();
            changed[1] |= 1 << bit;
            expect_all(comparison, "a spare bit of the length is taken", &changed, 8);
        }
    }
}

/// No length word as the second: a word of every other kind in its place, document 01's table without it, and one that
/// stands elsewhere.
fn missing(comparison: &mut Comparison) {
    let table = source();
    let wrong = "a table without a length is taken";
    for kind in (0..16).filter(|kind| *kind != LENGTH) {
        let mut other = table.clone();
        other[1] = kinds::word(kind) + table.len() as u32;
        expect_all(comparison, wrong, &other, 8);
        expect_all(comparison, wrong, &in_slice(&other, LONG, MOVE), 8);
    }
    let old = [&table[..1], &table[2..]].concat();
    for slice in [
        old.clone(),
        in_slice(&old, LONG, MOVE),
        old[..1].to_vec(),
        Vec::new(),
    ] {
        expect_all(comparison, wrong, &slice, 8);
    }
    for place in [0, 2, table.len() - 1] {
        let mut elsewhere = old.clone();
        elsewhere.insert(place, table[1]);
        expect_all(comparison, wrong, &elsewhere, 8);
    }
}

/// A second length word at every further place of the table, with the count of a word more; behind the table it is nothing.
fn second(comparison: &mut Comparison) {
    let table = source();
    for count in [LEAST_WORDS, table.len(), table.len() + 1] {
        let again = TableWord::Length(count);
        for place in 2..=table.len() {
            let mut twice = table.clone();
            twice.insert(place, again.word());
            say(&mut twice, table.len() + 1);
            expect_all(comparison, "a second length is taken", &twice, 8);
        }
        let slice = in_slice(&table, table.len() + 1, again);
        let wrong = "a length behind a table is read";
        same_as_alone(comparison, wrong, &examples::alphabet(), &table, &slice);
    }
}
