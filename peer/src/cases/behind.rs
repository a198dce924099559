//! Document 02's U1: what follows a table is ignored, so it is not read either. Each slice is lent from the end of a
//! mapping, and the table's slice is said to be longer than what is there: a call that touches more is ended.

use crate::cases::examples;
use crate::cases::in_slices::{source, tables, users, LONG};
use crate::compare::Comparison;
use crate::length_word::{say, with_length_word, LEAST_WORDS};
use crate::marks::Table;
use crate::words::TableWord;

pub fn compare(comparison: &mut Comparison) {
    whole_tables(comparison);
    refused_calls(comparison);
    faulty_tables(comparison);
    wrong_counts(comparison);
    short_slices(comparison);
}

/// Makes Run, List and Exchange with a table slice that is said to have so many words, and expects this number.
fn expect_said(
    comparison: &mut Comparison,
    wrong: &str,
    (alphabet, there): (&[u32], &[u32]),
    said: usize,
    number: u32,
) {
    let width = Table::read(alphabet, there).map_or(1, |table| table.width());
    for call in users(alphabet, there, width) {
        let answer = comparison.call_said(wrong, &call, said);
        comparison.check(wrong, answer.number == number, || {
            format!("    number {} instead of {number}\n{call}", answer.number)
        });
    }
}

/// Tables of all sorts in slices that are said to have a word more, or many, or more than 32 bits can count.
fn whole_tables(comparison: &mut Comparison) {
    for (alphabet, table) in tables() {
        let words = table.len();
        for said in [words, words + 1, LONG, 1 << 32, (1 << 32) + 1] {
            let wrong = "what is behind a table is read";
            expect_said(comparison, wrong, (&alphabet, &table), said, 0);
        }
    }
}

/// Calls that are refused for something else, which is judged behind the table.
fn refused_calls(comparison: &mut Comparison) {
    let wrong = "what is behind a table is read before another refusal";
    for (alphabet, table) in tables() {
        let width = Table::read(&alphabet, &table).expect("a table").width();
        let [mut run, mut list, mut exchange] = users(&alphabet, &table, width);
        run.tree.clear();
        list.list.clear();
        exchange.node = exchange.count;
        for (call, number) in [(run, 9), (list, 13), (exchange, 14)] {
            let answer = comparison.call_said(wrong, &call, LONG);
            comparison.check(wrong, answer.number == number, || {
                format!("    number {} instead of {number}\n{call}", answer.number)
            });
        }
    }
}

/// A table whose last word needs more: its parts are not looked for behind the table.
fn faulty_tables(comparison: &mut Comparison) {
    let own = examples::alphabet();
    let head = TableWord::Head {
        states: 2,
        accepting: 1,
    };
    let part = TableWord::Child(1);
    for (symbol, rank) in [(examples::G, 1), (examples::F, 2)] {
        for parts in 0..rank {
            let mut table = vec![head, TableWord::Transition { symbol, target: 1 }];
            table.extend(vec![part; parts]);
            let table = with_length_word(&table);
            for said in [table.len(), table.len() + 1, LONG] {
                let wrong = "a move's parts are read behind the table";
                expect_said(comparison, wrong, (&own, &table), said, 8);
            }
        }
    }
}

/// Counts that are under the least or over the most: the words that they would take are not looked at.
fn wrong_counts(comparison: &mut Comparison) {
    let own = examples::alphabet();
    let mut table = source();
    for count in [0, 1, 2049, 4095] {
        say(&mut table, count);
        for said in [table.len(), LONG, 1 << 32] {
            let wrong = "a table of a wrong count is read";
            expect_said(comparison, wrong, (&own, &table), said, 8);
        }
    }
}

/// Slices that end before a table does: nothing behind the slice is read.
fn short_slices(comparison: &mut Comparison) {
    let own = examples::alphabet();
    let table = source();
    let wrong = "what is behind a table's slice is read";
    for words in 0..table.len() {
        expect_said(comparison, wrong, (&own, &table[..words]), words, 8);
    }
    for (count, number) in [(0, 8), (1, 8), (LEAST_WORDS, 0), (3, 8), (2048, 8), (4095, 8)] {
        let slice = [table[0], TableWord::Length(count).word()];
        expect_said(comparison, wrong, (&own, &slice), slice.len(), number);
    }
}
