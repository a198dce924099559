//! Two faults at once: for each operation, an accepted call is given every pair of faults, and the number that the
//! documents name first must be the answer. Every condition of the operation must have been alone in some call, and every
//! two must have met in one, with no third.

use crate::call::{Call, Operation};
use crate::cases::anything_faults;
use crate::cases::damage::accepted_calls;
use crate::cases::examples::{self, A, D, G, H};
use crate::cases::heights::{RESULT_TOO_HIGH, TOO_HIGH};
use crate::cases::hole_faults;
use crate::cases::holes::HOLE_IN_REPLACEMENT;
use crate::cases::shapes::{chain, comb, low, source_words};
use crate::cases::total_faults;
use crate::compare::Comparison;
use crate::length_word::{say, table_in};
use crate::limits::{
    ARITY_LIMIT, CONSTANT_LIMIT, EXPRESSION_LIMIT, HEIGHT_LIMIT, NODE_LIMIT, SYMBOL_LIMIT, TABLE_LIMIT,
};
use crate::refusals::{self, Condition};
use crate::totals;
use crate::words::{self, entry_word, node_word, Operator, TableWord};
use std::collections::BTreeSet;

pub type Change = fn(&mut Call);

/// A change that gives a call the fault with this number, whatever else is wrong with it.
pub type Fault = (u32, Change);

/// More nodes than a slice needs for any tree.
const ROOM: usize = 2 * NODE_LIMIT;

pub fn compare(comparison: &mut Comparison) {
    for operation in Operation::ALL {
        compare_operation(comparison, operation);
    }
}

pub fn compare_operation(comparison: &mut Comparison, operation: Operation) {
    let mut accepted = accepted_calls(
        &examples::alphabet(),
        &examples::expression(),
        &examples::tree(),
        3,
    );
    accepted.retain(|call| call.operation == operation);
    let met: BTreeSet<_> = accepted.iter().flat_map(|call| pairs(comparison, call)).collect();
    let conditions = refusals::conditions(operation);
    for (place, first) in conditions.iter().enumerate() {
        let wrong = format!("{operation:?} was not given the fault {first} alone");
        comparison.check(&wrong, met.contains(&vec![*first]), String::new);
        for second in &conditions[place + 1..] {
            if can_meet(*first, *second) {
                let wrong = format!("{operation:?} was not given the faults {first} and {second}");
                comparison.check(&wrong, met.contains(&vec![*first, *second]), String::new);
            }
        }
    }
}

/// Words that are no tree have no height, and words that are no rule have no table. Among the cases of `heights` are
/// some that hold trees which are too high, and here some that hold rules whose tables are too long. A hole may stand
/// among any words, so that 26 meets every other number.
fn can_meet(first: Condition, second: Condition) -> bool {
    let apart = [
        (Condition::first(11), TOO_HIGH),
        (Condition::first(5), Condition::first(25)),
    ];
    !apart.contains(&(first, second))
}

/// Gives the call each fault alone and each two of them in both orders; answers which faults met.
fn pairs(comparison: &mut Comparison, accepted: &Call) -> BTreeSet<Vec<Condition>> {
    let mut met = BTreeSet::new();
    let faults = faults(accepted.operation);
    comparison.call("a call without a fault is refused", accepted);
    for (condition, change) in &faults {
        let mut call = accepted.clone();
        change(&mut call);
        let changed = call.clone();
        settle(&mut call, accepted);
        let answer = comparison.call("a single fault has another number", &call);
        let found = refusals::faults(&call);
        comparison.check(
            &format!("{:?} is not refused by {condition}", call.operation),
            found.contains(condition) && answer.number != 0,
            || call.to_string(),
        );
        met.insert(found);
        for (_, change_more) in &faults {
            let mut both = changed.clone();
            change_more(&mut both);
            settle(&mut both, accepted);
            comparison.call("two faults have another number", &both);
            met.insert(refusals::faults(&both));
        }
    }
    met
}

/// The record is right for what an Exchange was changed to, unless it was changed itself.
fn settle(call: &mut Call, accepted: &Call) {
    if call.operation == Operation::Exchange && call.totals == accepted.totals {
        call.totals = totals::right(call);
    }
}

fn faults(operation: Operation) -> Vec<(Condition, Change)> {
    let parts: &[fn() -> Vec<Fault>] = match operation {
        Operation::Compile => &[alphabet, compile, hole_faults::rule, anything_faults::rule],
        Operation::Run => &[alphabet, table, nodes, hole_faults::tree, sets, run],
        Operation::List => &[alphabet, table, count, sets, list],
        Operation::Exchange => &[
            alphabet,
            table,
            count,
            nodes,
            hole_faults::tree,
            sets,
            exchange,
            total_faults::record,
        ],
    };
    let faults = parts.iter().flat_map(|part| part());
    let mut faults: Vec<_> = faults
        .map(|(number, change)| (Condition::first(number), change))
        .collect();
    if operation == Operation::Exchange {
        faults.extend(high_results().map(|change| (RESULT_TOO_HIGH, change)));
        faults.extend(hole_faults::replacement().map(|change| (HOLE_IN_REPLACEMENT, change)));
    }
    faults
}

fn alphabet() -> Vec<Fault> {
    vec![
        (1, |call| call.alphabet.push(entry_word(ARITY_LIMIT + 1))),
        (1, |call| call.alphabet.push(entry_word(1) | 1 << 8)),
        (1, |call| call.alphabet.push(node_word(0))),
        (1, |call| call.alphabet.clear()),
        (1, |call| pad(&mut call.alphabet, SYMBOL_LIMIT + 1, entry_word(1))),
        (2, |call| add_constants(call, CONSTANT_LIMIT + 1)),
        (2, |call| call.alphabet = vec![entry_word(1); 7]),
    ]
}

fn compile() -> Vec<Fault> {
    vec![
        (3, |call| call.expression.clear()),
        (3, |call| {
            pad(
                &mut call.expression,
                EXPRESSION_LIMIT + 1,
                Operator::Closure(A).word(),
            );
            pad(&mut call.table, TABLE_LIMIT, 0);
        }),
        (3, |call| {
            call.expression = vec![Operator::Symbol(D).word(); EXPRESSION_LIMIT / 2 + 1];
            pad(&mut call.expression, EXPRESSION_LIMIT + 1, Operator::Union.word());
            pad(&mut call.table, TABLE_LIMIT, 0);
        }),
        (4, |call| {
            put_last(&mut call.expression, Operator::Closure(200).word())
        }),
        (4, |call| {
            put_last(&mut call.expression, Operator::Closure(G).word())
        }),
        (4, |call| put_last(&mut call.expression, node_word(0))),
        (4, |call| set_bit(&mut call.expression, 0, 27)),
        (5, |call| call.expression.push(Operator::Empty.word())),
        (5, |call| call.expression.insert(0, Operator::Empty.word())),
        (5, |call| {
            put(&mut call.expression, 0, Operator::Closure(A).word())
        }),
        (6, |call| {
            add_constants(call, CONSTANT_LIMIT);
            call.expression = vec![Operator::Symbol(D).word()];
            pad(&mut call.expression, 1 + 61, Operator::Closure(D).word());
            pad(&mut call.table, TABLE_LIMIT, 0);
        }),
        (7, |call| call.table.truncate(36)),
        (7, |call| call.table.truncate(1)),
        (7, |call| call.table.clear()),
    ]
}

fn table() -> Vec<Fault> {
    vec![
        (8, |call| call.table.clear()),
        (8, |call| {
            put(
                &mut call.table,
                0,
                TableWord::Head {
                    states: 0,
                    accepting: 0,
                }
                .word(),
            )
        }),
        (8, |call| set_bit(&mut call.table, 0, 27)),
        (8, |call| append(call, TableWord::Child(0))),
        (8, |call| {
            append(
                call,
                TableWord::Head {
                    states: 29,
                    accepting: 24,
                },
            )
        }),
        (8, |call| {
            append(call, TableWord::Transition { symbol: G, target: 0 })
        }),
        (8, |call| {
            append(
                call,
                TableWord::Transition {
                    symbol: 200,
                    target: 0,
                },
            )
        }),
        (8, |call| append(call, TableWord::Epsilon { from: 0, to: 29 })),
        (8, |call| append(call, TableWord::Length(38))),
        (8, |call| call.table.truncate(1)),
        (8, |call| call.table.truncate(36)),
        (8, |call| {
            call.table.truncate(37);
            pad(
                &mut call.table,
                TABLE_LIMIT + 1,
                TableWord::Epsilon { from: 0, to: 0 }.word(),
            );
            say(&mut call.table, TABLE_LIMIT + 1);
        }),
        (8, |call| say(&mut call.table, 0)),
        (8, |call| say(&mut call.table, 1)),
        (8, |call| say(&mut call.table, 4095)),
        (8, |call| {
            let over = call.table.len() + 1;
            say(&mut call.table, over);
        }),
        (8, |call| set_bit(&mut call.table, 1, 12)),
        (8, |call| set_bit(&mut call.table, 1, 27)),
        (8, |call| {
            put(&mut call.table, 1, TableWord::Epsilon { from: 0, to: 0 }.word())
        }),
        (8, |call| {
            // Document 01's table.
            if call.table.len() > 1 {
                call.table.remove(1);
            }
        }),
    ]
}

fn run() -> Vec<Fault> {
    vec![
        (9, |call| call.tree.clear()),
        (9, |call| {
            call.tree = source_words(&low(NODE_LIMIT + 1));
            pad(&mut call.sets, ROOM, 0);
        }),
        (11, |call| call.tree.push(node_word(A))),
        (11, |call| call.tree.insert(0, node_word(G))),
        (24, |call| {
            call.tree.extend([node_word(G); HEIGHT_LIMIT]);
            pad(&mut call.sets, ROOM, 0);
        }),
        (24, |call| {
            call.tree = source_words(&comb(2, 0, HEIGHT_LIMIT + 1));
            pad(&mut call.sets, ROOM, 0);
        }),
    ]
}

fn count() -> Vec<Fault> {
    vec![(9, |call| call.count = 0), (9, |call| call.count = usize::MAX)]
}

fn nodes() -> Vec<Fault> {
    vec![
        (10, |call| put(&mut call.tree, 0, node_word(200))),
        (10, |call| set_bit(&mut call.tree, 0, 8)),
        (10, |call| put(&mut call.tree, 0, Operator::Symbol(A).word())),
    ]
}

fn sets() -> Vec<Fault> {
    vec![(12, |call| call.sets.truncate(6)), (12, |call| call.sets.clear())]
}

fn list() -> Vec<Fault> {
    vec![
        (9, |call| {
            call.count = NODE_LIMIT + 1;
            pad(&mut call.sets, ROOM, 0);
            pad(&mut call.list, ROOM, 0);
        }),
        (9, |call| call.count = (1 << 32) + 7),
        (13, |call| call.list.truncate(6)),
        (13, |call| call.list.clear()),
    ]
}

fn exchange() -> Vec<Fault> {
    vec![
        (9, |call| {
            call.tree.truncate(7);
            call.count = 8;
        }),
        (9, |call| use_tree(call, source_words(&low(NODE_LIMIT + 1)))),
        (10, |call| put(&mut call.tree, 3, node_word(200))),
        (11, |call| put(&mut call.tree, 0, node_word(G))),
        (11, |call| put(&mut call.tree, 6, node_word(H))),
        (12, |call| {
            call.node = 4;
            call.sets.truncate(6);
        }),
        (12, |call| {
            // The marks suffice for a result that is too high.
            use_tree(call, source_words(&low(2 * HEIGHT_LIMIT)));
            call.sets.truncate(2 * HEIGHT_LIMIT - 1);
        }),
        (14, |call| call.node = call.count),
        (14, |call| call.node = usize::MAX),
        (14, |call| call.node = (1 << 32) + 3),
        (15, |call| call.replacement.clear()),
        (15, |call| put(&mut call.replacement, 0, node_word(200))),
        (15, |call| call.replacement.insert(0, node_word(A))),
        (15, |call| call.replacement.insert(0, node_word(G))),
        (15, |call| call.replacement = source_words(&low(NODE_LIMIT + 1))),
        (16, |call| pad(&mut call.replacement, 12, node_word(G))),
        (16, |call| {
            // It is longer than the slice, wherever it is put.
            call.replacement = source_words(&low(call.tree.len() + 1))
        }),
        (16, |call| {
            call.sets.truncate(7);
            pad(&mut call.replacement, 8, node_word(G));
        }),
        (16, |call| {
            pad(&mut call.tree, ROOM, 0);
            pad(&mut call.sets, ROOM, 0);
            call.replacement = source_words(&low(NODE_LIMIT));
        }),
        (24, |call| {
            // On top of whatever is used; the root gives way, so that the result need not be too high.
            let used = call.count.min(call.tree.len());
            call.tree.splice(used..used, [node_word(G); HEIGHT_LIMIT]);
            call.count = call.count.saturating_add(HEIGHT_LIMIT);
            call.node = call.count - 1;
            pad(&mut call.sets, ROOM, 0);
        }),
        (24, |call| {
            use_tree(call, source_words(&comb(2, 1, HEIGHT_LIMIT + 1)))
        }),
    ]
}

/// Exchanges whose result is too high: by the replacement alone, and by the place where a low one is put.
fn high_results() -> [Change; 2] {
    [
        |call| {
            call.replacement = source_words(&chain(HEIGHT_LIMIT + 1));
            pad(&mut call.tree, ROOM, 0);
            pad(&mut call.sets, ROOM, 0);
        },
        |call| {
            use_tree(call, source_words(&comb(2, 0, HEIGHT_LIMIT)));
            call.node = 0;
            call.replacement = source_words(&chain(2));
        },
    ]
}

/// Gives an Exchange these used elements, of which the root gives way, and room for any.
fn use_tree(call: &mut Call, tree: Vec<u32>) {
    call.count = tree.len();
    call.node = tree.len() - 1;
    call.tree = tree;
    pad(&mut call.tree, ROOM, 0);
    pad(&mut call.sets, ROOM, 0);
}

pub fn pad(words: &mut Vec<u32>, length: usize, word: u32) {
    if words.len() < length {
        words.resize(length, word);
    }
}

/// Writes a word where the slice has that place.
pub fn put(words: &mut [u32], place: usize, word: u32) {
    if let Some(old) = words.get_mut(place) {
        *old = word;
    }
}

/// Puts a word behind the table, before all that follows it, and counts it.
fn append(call: &mut Call, word: TableWord) {
    let end = table_in(&call.table).map_or(call.table.len(), <[u32]>::len);
    call.table.insert(end, word.word());
    say(&mut call.table, end + 1);
}

fn put_last(words: &mut [u32], word: u32) {
    if let Some(old) = words.last_mut() {
        *old = word;
    }
}

pub fn set_bit(words: &mut [u32], place: usize, bit: u32) {
    if let Some(word) = words.get_mut(place) {
        *word |= 1 << bit;
    }
}

/// Appends constants to the alphabet until it has so many; a compiled table then needs more room.
pub fn add_constants(call: &mut Call, count: usize) {
    while words::constants(&call.alphabet).len() < count {
        call.alphabet.push(entry_word(0));
    }
    if call.operation == Operation::Compile {
        pad(&mut call.table, TABLE_LIMIT, 0);
    }
}
