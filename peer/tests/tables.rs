//! The words of tables as documents 01 and 02 (U1) have them, in figures.

use peer::automaton;
use peer::cases::examples::{alphabet, expression, D};
use peer::cases::in_slices::{ending_with, of_all_arities, users};
use peer::cases::largest::largest;
use peer::kinds::{kind, CHILD, TRANSITION};
use peer::length_word::{table_in, with_length_word};
use peer::marks::Table;
use peer::model;
use peer::words::{node_word, Operator, TableWord};

#[test]
fn the_sources_table_has_other_words() {
    let table = automaton::table(&alphabet(), &expression()).expect("an expression");
    assert_eq!((table.len(), table[0], table[1]), (37, 0x8000_7418, 0xc000_0025));
}

#[test]
fn the_largest_compiled_table_has_other_words() {
    let (alphabet, expression) = largest();
    let table = automaton::table(&alphabet, &expression).expect("an expression");
    assert_eq!((table.len(), table[1]), (1148, 0xc000_047c));
}

#[test]
fn the_smallest_tables_have_other_words() {
    let table =
        |operator: Operator| automaton::table(&alphabet(), &[operator.word()]).expect("an expression");
    assert_eq!(table(Operator::Empty), [0x8000_0400, 0xc000_0002]);
    assert_eq!(
        table(Operator::Symbol(D)),
        [0x8000_0400, 0xc000_0003, 0x9000_0c00]
    );
}

#[test]
fn a_length_word_is_read_otherwise() {
    assert_eq!(TableWord::read(0xc000_0025), Some(TableWord::Length(37)));
    assert_eq!(TableWord::read(0xc000_0fff), Some(TableWord::Length(4095)));
    for bit in 12..28 {
        assert_eq!(TableWord::read(0xc000_0025 | 1 << bit), None);
    }
}

#[test]
fn a_table_ends_elsewhere_in_its_slice() {
    let head = TableWord::Head {
        states: 1,
        accepting: 0,
    };
    let table = with_length_word(&[head, TableWord::Epsilon { from: 0, to: 0 }]);
    assert_eq!(table, [0x8000_0400, 0xc000_0003, 0xa000_0000]);
    for behind in [0, 1, 2045, 2046, 4997] {
        let slice = [&table[..], &vec![0xdead_beef; behind]].concat();
        assert_eq!(table_in(&slice), Some(&table[..]));
        assert!(Table::read(&alphabet(), &slice).is_some());
    }
    for length in 0..3 {
        assert_eq!(table_in(&table[..length]), None);
    }
    // 2 and 2,048 are counts, and 1 and 2,049 none.
    let mut slice = [&table[..], &[0xa000_0000; 4997]].concat();
    for (count, words) in [
        (0, None),
        (1, None),
        (2, Some(2)),
        (2048, Some(2048)),
        (2049, None),
        (4095, None),
    ] {
        slice[1] = 0xc000_0000 + count;
        assert_eq!(table_in(&slice).map(<[u32]>::len), words);
        assert_eq!(Table::read(&alphabet(), &slice).is_some(), words.is_some());
    }
}

#[test]
fn a_table_of_document_01_or_with_two_lengths_is_taken() {
    let table = automaton::table(&alphabet(), &expression()).expect("an expression");
    assert!(Table::read(&alphabet(), &table).is_some());
    let old = [&table[..1], &table[2..]].concat();
    assert!(Table::read(&alphabet(), &old).is_none());
    let twice = [&table[..1], &[0xc000_0026; 2], &table[2..]].concat();
    assert!(Table::read(&alphabet(), &twice).is_none());
}

#[test]
fn the_last_transition_of_a_table_is_not_taken() {
    let alphabet = of_all_arities();
    for (states, last_set) in [(1, 1), (1024, 1 << 31)] {
        for symbol in 0..=4 {
            let table = ending_with(symbol, states);
            let ends_with = if symbol == 0 { TRANSITION } else { CHILD };
            assert_eq!(table.last().map(|word| kind(*word)), Some(ends_with));
            let read = Table::read(&alphabet, &table).expect("a table");
            let [run, _, exchange] = users(&alphabet, &table, read.width());
            for tree in [run.tree, exchange.replacement] {
                assert!(tree.contains(&node_word(symbol)));
                let sets = model::state_sets(&alphabet, &read, &tree);
                let mut sets = sets.chunks(read.width());
                assert!(sets.all(|set| set.last() == Some(&last_set)));
            }
        }
    }
}
