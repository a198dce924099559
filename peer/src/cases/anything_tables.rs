//! Document 02's U7: how long a table may be, and what is answered by 25. Tables of the most words and of one more, in
//! slices of all lengths; rules of the most states and of more; the longest table of all.

use crate::automaton;
use crate::call::Call;
use crate::cases::aimed;
use crate::cases::anything_faults::{unions, ROOM};
use crate::cases::heights::expect_faults;
use crate::cases::patterns::Pattern;
use crate::compare::Comparison;
use crate::limits::{
    ARITY_LIMIT, COMPILED_LIMIT, CONSTANT_LIMIT, EXPRESSION_LIMIT, STATE_LIMIT, SYMBOL_LIMIT, TABLE_LIMIT,
};
use crate::refusals::Condition;
use crate::words::{entry_word, Operator, TableWord};

pub fn compare(comparison: &mut Comparison) {
    around_the_limit(comparison);
    other_lengths(comparison);
    most_states(comparison);
    too_many_states(comparison);
    longest(comparison);
}

/// A table over the most words.
pub const TOO_LONG: Condition = Condition::first(25);

const STATES: Condition = Condition::first(6);
const SLICE: Condition = Condition::first(7);

/// Compile into slices of every relation to the table's length, which is known, and to the most words: 25 is answered
/// whatever the slice is, and 7 where the table is short enough and the slice is not long enough. What is behind an
/// accepted table stays.
fn expect_length(comparison: &mut Comparison, wrong: &str, own: &Pattern, words: usize) {
    let Pattern { alphabet, expression } = own;
    let table = automaton::table(alphabet, expression).map_or(0, |table| table.len());
    comparison.check(
        "a table has not the length that is asked for",
        table == words,
        || format!("    {table} instead of {words}"),
    );
    let around = |length: usize| [length.saturating_sub(1), length, length + 1];
    let mut lengths = [around(words), around(TABLE_LIMIT), [0, 2, ROOM]].concat();
    lengths.sort_unstable();
    lengths.dedup();
    for length in lengths {
        let lent: Vec<u32> = (0..length as u32).map(|place| 0x5eed_0000 + place).collect();
        let call = Call::compile(alphabet, expression, lent.clone());
        let mut faults = Vec::new();
        if words > TABLE_LIMIT {
            faults.push(TOO_LONG);
        }
        if words > length {
            faults.push(SLICE);
        }
        let answer = expect_faults(comparison, wrong, &call, &faults);
        if faults.is_empty() {
            let is_right = answer.values[0] as usize == words
                && answer.after.table[1] == TableWord::Length(words).word()
                && answer.after.table[words..] == lent[words..];
            comparison.check(wrong, is_right, || call.to_string());
        }
    }
}

/// Many rules over many alphabets for each length around the limit.
fn around_the_limit(comparison: &mut Comparison) {
    let wrong = "a table of about the most words is judged otherwise";
    for words in TABLE_LIMIT - 2..=TABLE_LIMIT + 2 {
        for own in aimed::patterns(words, 12) {
            expect_length(comparison, wrong, &own, words);
        }
    }
}

/// Shorter tables, which no rule without `anything` has, and much longer ones; some at the lengths from which numbers of
/// so many bits begin again.
fn other_lengths(comparison: &mut Comparison) {
    let wrong = "a table of some length is judged otherwise";
    let shorter = [
        1024,
        COMPILED_LIMIT - 1,
        COMPILED_LIMIT,
        COMPILED_LIMIT + 1,
        1536,
        2000,
    ];
    let longer = [
        3000, 4094, 4095, 4096, 4097, 4098, 4099, 5000, 6143, 6144, 6145, 8192, 8194,
    ];
    for words in shorter.into_iter().chain(longer) {
        for own in aimed::patterns(words, 3) {
            expect_length(comparison, wrong, &own, words);
        }
    }
}

/// 1,024 states with tables around the most words: 25 alone decides.
fn most_states(comparison: &mut Comparison) {
    let wrong = "a table of the most states and about the most words is judged otherwise";
    for words in [
        1500,
        2000,
        TABLE_LIMIT - 1,
        TABLE_LIMIT,
        TABLE_LIMIT + 1,
        2300,
        3100,
    ] {
        let all = aimed::with_most_states(words);
        comparison.check(
            "no rule of the most states has this length",
            !all.is_empty(),
            || format!("    {words}"),
        );
        for own in all {
            let states = automaton::states(&own.alphabet, &own.expression);
            comparison.check("a rule has not the most states", states == STATE_LIMIT, || {
                format!("    {states}")
            });
            expect_length(comparison, wrong, &own, words);
        }
    }
}

/// Rules of more than 1,024 states, with tables that are short enough and that are not, in slices that are and are not:
/// 6 comes first.
fn too_many_states(comparison: &mut Comparison) {
    let wrong = "too many states and a table that is too long are judged in another order";
    for (symbols, is_too_long) in [(0, false), (1, false), (2, false), (4, true), (48, true)] {
        let mut alphabet = vec![entry_word(0); CONSTANT_LIMIT];
        alphabet.extend(vec![entry_word(ARITY_LIMIT); symbols]);
        // 30 unions of 31 rules have 61 words with entries.
        for count in [31, 32] {
            let rule = unions(count);
            let words = automaton::table(&alphabet, &rule).map_or(0, |table| table.len());
            comparison.check(wrong, (words > TABLE_LIMIT) == is_too_long, || {
                format!("    {words}")
            });
            for length in [0, 2, TABLE_LIMIT, words - 1, words, ROOM] {
                let mut faults = vec![STATES];
                if is_too_long {
                    faults.push(TOO_LONG);
                }
                if words > length {
                    faults.push(SLICE);
                }
                let call = Call::compile(&alphabet, &rule, vec![7; length]);
                expect_faults(comparison, wrong, &call, &faults);
            }
        }
    }
}

/// The most symbols with children, each of the greatest arity, and the most `anything`: 32 in 31 unions, and one word
/// more. Fewer of them fit.
fn longest(comparison: &mut Comparison) {
    let wrong = "the longest table is judged otherwise";
    for constant in [0, 31, SYMBOL_LIMIT - 1] {
        let mut alphabet = vec![entry_word(ARITY_LIMIT); SYMBOL_LIMIT];
        alphabet[constant] = entry_word(0);
        let mut own = Pattern {
            alphabet,
            expression: Vec::new(),
        };
        for (count, words) in [(1, 319), (2, 639), (6, 1919), (7, 2239), (32, 10_239)] {
            own.expression = unions(count);
            expect_length(comparison, wrong, &own, words);
        }
        own.expression.push(Operator::Closure(constant).word());
        comparison.check(wrong, own.expression.len() == EXPRESSION_LIMIT, String::new);
        expect_length(comparison, wrong, &own, 10_243);
    }
}
