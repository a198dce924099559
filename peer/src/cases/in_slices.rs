//! Tables in slices that may be longer (document 02, U1), and the calls that use them.

use crate::automaton;
use crate::call::Call;
use crate::cases::aimed;
use crate::cases::examples;
use crate::cases::largest::largest;
use crate::chance::Random;
use crate::compare::Comparison;
use crate::generate;
use crate::length_word::{say, with_length_word};
use crate::limits::{ARITY_LIMIT, STATE_LIMIT, TABLE_LIMIT};
use crate::marks::Table;
use crate::words::{self, entry_word, TableWord};

/// A slice's words, where it is longer than any table.
pub const LONG: usize = 5000;

/// The source's table, which ends with an epsilon transition.
pub fn source() -> Vec<u32> {
    automaton::table(&examples::alphabet(), &examples::expression()).expect("an expression")
}

/// A table of the most words over the source's alphabet: the source's transitions, then one from a state to itself again and
/// again, and last one by which a is a match.
pub fn full() -> Vec<u32> {
    let mut table = source();
    let read = Table::read(&examples::alphabet(), &table).expect("a table");
    table.resize(TABLE_LIMIT - 1, TableWord::Epsilon { from: 1, to: 1 }.word());
    let to = read.accepting;
    table.push(TableWord::Epsilon { from: 0, to }.word());
    say(&mut table, TABLE_LIMIT);
    table
}

/// An alphabet with a symbol of each arity, which is its number.
pub fn of_all_arities() -> Vec<u32> {
    (0..=ARITY_LIMIT).map(entry_word).collect()
}

/// A table with so many states over that alphabet, of which every tree reaches the last, with a transition on each symbol, on
/// this one last: so the table ends with that transition or with its last child state.
pub fn ending_with(symbol: usize, states: usize) -> Vec<u32> {
    let accepting = states - 1;
    let mut table = vec![TableWord::Head { states, accepting }];
    for place in symbol + 1..=symbol + 1 + ARITY_LIMIT {
        let symbol = place % (ARITY_LIMIT + 1);
        let target = accepting;
        table.push(TableWord::Transition { symbol, target });
        table.extend(vec![TableWord::Child(accepting); symbol]);
    }
    with_length_word(&table)
}

/// Tables of all lengths and with every sort of last word, each with its alphabet: the smallest, the source's, the largest
/// compiled one without `anything`, and two of the most words, of which one is compiled and has the most states too; all but
/// the first end with an epsilon transition. And with few and many states one that ends with the transition on a symbol of
/// each arity.
pub fn tables() -> Vec<(Vec<u32>, Vec<u32>)> {
    let own = examples::alphabet();
    let smallest = with_length_word(&[TableWord::Head {
        states: 1,
        accepting: 0,
    }]);
    let (sixteen, rule) = largest();
    let most_compiled = automaton::table(&sixteen, &rule).expect("an expression");
    let with_anything = aimed::with_most_states(TABLE_LIMIT).pop().expect("a rule");
    let longest =
        automaton::table(&with_anything.alphabet, &with_anything.expression).expect("an expression");
    let mut tables = vec![
        (own.clone(), smallest),
        (own.clone(), source()),
        (sixteen, most_compiled),
        (own, full()),
        (with_anything.alphabet, longest),
    ];
    for states in [1, STATE_LIMIT] {
        tables.extend((0..=ARITY_LIMIT).map(|symbol| (of_all_arities(), ending_with(symbol, states))));
    }
    tables
}

/// The table, and then words of a sort up to a longer slice.
pub fn in_slice(table: &[u32], length: usize, behind: TableWord) -> Vec<u32> {
    let mut slice = table.to_vec();
    slice.resize(length.max(table.len()), behind.word());
    slice
}

/// A well-formed move behind a table: a count that is too large takes it in.
pub const MOVE: TableWord = TableWord::Epsilon { from: 1, to: 2 };

/// A random tree under one node of each symbol that takes children.
fn under_all_symbols(random: &mut Random, alphabet: &[u32], budget: usize) -> Vec<u32> {
    let mut tree = generate::tree(random, alphabet, budget);
    let leaf = words::constants(alphabet)[0];
    for (symbol, arity) in words::arities(alphabet).into_iter().enumerate() {
        if arity > 0 {
            tree.extend(vec![leaf; arity - 1]);
            tree.push(symbol);
        }
    }
    words::node_words(&tree)
}

/// Run, List and Exchange with this table slice over an alphabet. The marks are anything, with room for `width` words an
/// element; the chapter is the same each time.
pub fn users(alphabet: &[u32], slice: &[u32], width: usize) -> [Call; 3] {
    let mut random = Random::of_case("users", 1, width as u64);
    let tree = under_all_symbols(&mut random, alphabet, 12);
    let replacement = under_all_symbols(&mut random, alphabet, 3);
    let room = tree.len() + replacement.len();
    let sets = random.words(room * width);
    let mut chapter = tree.clone();
    chapter.resize(room, 0x1234_5678);
    [
        Call::run(alphabet, slice, &tree, sets.clone()),
        Call::list(alphabet, slice, tree.len(), &sets, vec![0x6b6b_6b6b; room]),
        Call::exchange(
            alphabet,
            slice,
            chapter,
            tree.len(),
            sets,
            tree.len() / 2,
            &replacement,
        ),
    ]
}

/// Compares Run, List and Exchange with the table alone and with the slice that it begins, and checks that what is answered
/// and written is the same.
pub fn same_as_alone(
    comparison: &mut Comparison,
    wrong: &str,
    alphabet: &[u32],
    table: &[u32],
    slice: &[u32],
) {
    let width = Table::read(alphabet, table).expect("a table").width();
    for alone in users(alphabet, table, width) {
        let mut longer = alone.clone();
        longer.table = slice.to_vec();
        let expected = comparison.call(wrong, &alone);
        let mut found = comparison.call(wrong, &longer);
        let is_kept = found.after.table == slice;
        found.after.table = table.to_vec();
        comparison.check(
            wrong,
            is_kept && expected.number == 0 && found == expected,
            || longer.to_string(),
        );
    }
}
