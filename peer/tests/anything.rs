//! The rule word `anything` and its refusals as document 02 (U7) has them, in figures.

use peer::automaton;
use peer::call::{Call, Operation};
use peer::cases::aimed;
use peer::cases::anything_faults::unions;
use peer::cases::examples::{self, A, B, C, D, F, G};
use peer::cases::holes::source_with;
use peer::cases::patterns::Pattern;
use peer::language::literal::{members, trees};
use peer::language::membership::Membership;
use peer::language::{Expression, Tree};
use peer::limits::TABLE_LIMIT;
use peer::marklist::{encode, expected};
use peer::refusals::{conditions, faults};
use peer::words::{arities, entry_word, node_words, operands, operator_words, Operator};
use std::collections::BTreeSet;
use Operator::{Anything, Closure, Empty, Product, Symbol, Union};

#[test]
fn the_word_is_read_otherwise() {
    assert_eq!(Operator::read(0xe000_0000), Some(Anything));
    assert_eq!(Anything.word(), 0xe000_0000);
    assert_eq!(operands(&examples::alphabet(), 0xe000_0000), Some(0));
    for bit in 0..31 {
        assert_eq!(Operator::read(0xe000_0000 ^ 1 << bit), None);
    }
    assert_eq!(Operator::read(0x6000_0000), Some(Closure(0)));
}

fn table(ranks: &[usize], rule: &[Operator]) -> Vec<u32> {
    let alphabet: Vec<u32> = ranks.iter().copied().map(entry_word).collect();
    automaton::table(&alphabet, &operator_words(rule)).expect("an expression")
}

#[test]
fn anything_alone_has_another_table() {
    // c and f.
    assert_eq!(
        table(&[0, 2], &[Anything]),
        [
            0x8000_0800,
            0xc000_0007,
            0x9000_0001,
            0x9000_0400,
            0xb000_0000,
            0xb000_0000,
            0xa000_0400
        ]
    );
    // Two constants: no symbol has parts.
    assert_eq!(
        table(&[0, 0], &[Anything]),
        [
            0x8000_0c00,
            0xc000_0006,
            0x9000_0001,
            0x9000_0402,
            0xa000_0400,
            0xa000_0800
        ]
    );
    // Constants between symbols of arity 1 and 3.
    assert_eq!(
        table(&[1, 0, 3, 0], &[Anything]),
        [
            0x8000_0c00,
            0xc000_000c,
            0x9000_0401,
            0x9000_0c02,
            0x9000_0000,
            0xb000_0000,
            0x9000_0800,
            0xb000_0000,
            0xb000_0000,
            0xb000_0000,
            0xa000_0400,
            0xa000_0800
        ]
    );
}

#[test]
fn anything_in_a_rule_has_another_table() {
    // c + anything, over c and f.
    assert_eq!(
        table(&[0, 2], &[Symbol(0), Anything, Union]),
        [
            0x8000_1403,
            0xc000_000b,
            0x9000_0004,
            0x9000_0401,
            0xb000_0001,
            0xb000_0001,
            0xa000_0801,
            0xa000_0003,
            0xa000_0403,
            0xa000_1000,
            0xa000_1002
        ]
    );
    // anything by a over c, over c, a and g.
    assert_eq!(
        table(&[0, 0, 1], &[Anything, Symbol(1), Product(0)]),
        [
            0x8000_1c04,
            0xc000_000c,
            0x9000_0005,
            0x9000_0406,
            0x9000_0800,
            0xb000_0000,
            0xa000_0400,
            0xa000_0800,
            0xa000_0004,
            0xa000_0c01,
            0xa000_1802,
            0xa000_1803
        ]
    );
    // The closure over c of f(c, anything), over c and f.
    assert_eq!(
        table(&[0, 2], &[Symbol(0), Anything, Symbol(1), Closure(0)]),
        [
            0x8000_1c05,
            0xc000_0010,
            0x9000_0006,
            0x9000_0401,
            0xb000_0001,
            0xb000_0001,
            0xa000_0801,
            0x9000_0403,
            0xb000_0000,
            0xb000_0001,
            0xa000_1000,
            0xa000_1002,
            0xa000_0c04,
            0xa000_0c05,
            0xa000_1804,
            0xa000_1805
        ]
    );
}

#[test]
fn a_hole_changes_the_table_of_anything() {
    let rule = operator_words(&[Anything, Symbol(A), Symbol(F), Closure(C)]);
    let of_holes = |holes: &[usize]| automaton::table(&source_with(holes), &rule);
    assert!(of_holes(&[]).is_some());
    assert!([&[C][..], &[C, D], &[A, B, C, D]]
        .iter()
        .all(|holes| of_holes(holes) == of_holes(&[])));
}

/// The members of a rule over c, a of arity 0 and g of arity 1 with at most three nodes, by both readings.
fn language(rule: &[Operator]) -> BTreeSet<Tree> {
    let alphabet = [0, 0, 1].map(entry_word);
    let arities = arities(&alphabet);
    let read = Expression::read(&alphabet, &operator_words(rule)).expect("an expression");
    let membership = Membership::new(&read, &arities);
    let literal = members(&read, &arities, 3);
    for tree in trees(&arities, 3) {
        let decided = membership.subtrees(&tree).pop() == Some(true);
        assert_eq!(literal.contains(&tree), decided, "{tree:?}");
    }
    literal
}

#[test]
fn anything_has_another_language() {
    let (c, a, g) = (0, 1, 2);
    let chains = |leaf: usize| [vec![leaf], vec![leaf, g], vec![leaf, g, g]];
    let all = BTreeSet::from_iter([chains(c), chains(a)].concat());
    let without_c = BTreeSet::from(chains(a));
    assert_eq!(language(&[Anything]), all);
    assert_eq!(language(&[Anything, Symbol(c), Product(c)]), all);
    assert_eq!(language(&[Anything, Anything, Product(c)]), all);
    assert_eq!(language(&[Symbol(c), Anything, Product(c)]), all);
    assert_eq!(language(&[Anything, Closure(c)]), all);
    assert_eq!(language(&[Anything, Symbol(a), Product(c)]), without_c);
    assert_eq!(language(&[Anything, Empty, Product(c)]), without_c);
    assert_eq!(language(&[Anything, Symbol(a), Product(a)]), all);
    // Above each c that is left stands g: c alone is no member.
    let under_g = all.iter().filter(|tree| **tree != [c]).cloned().collect();
    assert_eq!(language(&[Anything, Symbol(c), Symbol(g), Product(c)]), under_g);
    // Step 0 has c, and every other member has g at its root.
    let g_or_c = all.iter().filter(|tree| **tree != [a]).cloned().collect();
    assert_eq!(language(&[Anything, Symbol(g), Closure(c)]), g_or_c);
}

fn numbers_of(alphabet: &[u32], rule: &[u32], slice: usize) -> Vec<u32> {
    let call = Call::compile(alphabet, rule, vec![0; slice]);
    faults(&call).into_iter().map(|fault| fault.number).collect()
}

#[test]
fn a_long_table_has_another_number() {
    let of_compile = conditions(Operation::Compile).into_iter();
    let order: Vec<u32> = of_compile.map(|condition| condition.number).collect();
    assert_eq!(order[5..], [6, 25, 7]);
    for (words, slice, numbers) in [
        (2047, 2046, vec![7]),
        (2047, 2047, vec![]),
        (2048, 2047, vec![7]),
        (2048, 2048, vec![]),
        (2048, 5000, vec![]),
        (2049, 2048, vec![25, 7]),
        (2049, 2049, vec![25]),
        (2049, 5000, vec![25]),
    ] {
        let rules = [aimed::patterns(words, 5), aimed::with_most_states(words)].concat();
        assert!(rules.len() > 5);
        for Pattern { alphabet, expression } in rules {
            assert_eq!(numbers_of(&alphabet, &expression, slice), numbers);
        }
    }
}

#[test]
fn an_aimed_table_has_another_length() {
    for words in (1149..=2300).step_by(37).chain([4096, 6144, 8194]) {
        let rules = [aimed::patterns(words, 2), aimed::with_most_states(words)].concat();
        for Pattern { alphabet, expression } in rules {
            let table = automaton::table(&alphabet, &expression).expect("an expression");
            assert_eq!(table.len(), words);
            assert!(automaton::states(&alphabet, &expression) <= 1024);
            let numbers = if words > TABLE_LIMIT { vec![25] } else { vec![] };
            assert_eq!(numbers_of(&alphabet, &expression, words), numbers);
        }
    }
}

#[test]
fn the_longest_table_has_another_length() {
    let mut alphabet = vec![entry_word(4); 64];
    alphabet[0] = entry_word(0);
    let rule = unions(32);
    assert_eq!(rule.len(), 63);
    assert_eq!(
        automaton::table(&alphabet, &rule).map(|table| table.len()),
        Some(10_239)
    );
    assert_eq!(numbers_of(&alphabet, &rule, 10_239), [25]);
    assert_eq!(numbers_of(&alphabet, &rule, 2048), [25, 7]);
    // Six have a table of 1,919 words, seven one of 2,239.
    assert_eq!(numbers_of(&alphabet, &unions(6), 1919), []);
    assert_eq!(numbers_of(&alphabet, &unions(7), 2239), [25]);
}

#[test]
fn the_program_prints_another_number() {
    let tree = node_words(&[A, C, G, F]);
    let print = |rule: &[Operator]| expected(&encode(&examples::alphabet(), &operator_words(rule), &tree));
    assert_eq!(
        print(&[Anything]),
        "nodes 4 states 5 hits 4\n0 0 1\n1 2 1\n2 5 2\n3 4 4\n"
    );
    assert_eq!(
        print(&[Anything, Symbol(A), Product(C)]),
        "nodes 4 states 11 hits 1\n0 0 1\n"
    );
    let long = |words: usize, nodes: usize| {
        let Pattern { alphabet, expression } = aimed::patterns(words, 1).remove(0);
        let leaf = (0..alphabet.len()).find(|symbol| alphabet[*symbol] == entry_word(0));
        let tree = node_words(&vec![leaf.expect("a constant"); nodes]);
        expected(&encode(&alphabet, &expression, &tree))
    };
    assert!(long(2048, 1).starts_with("nodes 1 states "));
    assert_eq!(long(2048, 2), "refused 11\n");
    assert_eq!(long(2048, 257), "refused 9\n");
    assert_eq!(long(2049, 1), "refused 25\n");
    assert_eq!(long(2049, 257), "refused 25\n");
}
