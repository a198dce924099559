//! Holes and their refusals as document 02 (U8) has them, in figures.

use peer::automaton;
use peer::call::{Call, Operation};
use peer::cases::examples::{expression, A, B, C, D, F, G};
use peer::cases::holed::Holed;
use peer::cases::holes::{source_with, HOLE_IN_CHAPTER, HOLE_IN_REPLACEMENT};
use peer::cases::shapes::{high, low, shape_children, with_leaf};
use peer::language::literal::members;
use peer::language::Expression;
use peer::limits::HEIGHT_LIMIT;
use peer::marklist::{encode, expected};
use peer::postfix::heights;
use peer::refusals::{conditions, faults};
use peer::words::{arities, has_hole, holes, leaves, named, node_words, operator_words, Entry, Operator};
use Operator::{Closure, Product, Symbol};

#[test]
fn an_entry_is_read_otherwise() {
    for arity in 0..=4 {
        let word = 0x1000_0000 + arity as u32;
        assert_eq!(Entry::read(word), Some(Entry::Symbol(arity)));
        let with_mark = (arity == 0).then_some(Entry::Hole);
        assert_eq!(Entry::read(word + 0x100), with_mark);
        for bit in 9..32 {
            assert_eq!(Entry::read(word ^ 1 << bit), None);
            assert_eq!(Entry::read((word + 0x100) ^ 1 << bit), None);
        }
    }
    for rank in 5..256 {
        assert_eq!(Entry::read(0x1000_0000 + rank), None);
        assert_eq!(Entry::read(0x1000_0100 + rank), None);
    }
    assert_eq!((Entry::Hole.word(), Entry::Hole.arity()), (0x1000_0100, 0));
}

#[test]
fn the_constants_of_an_alphabet_are_others() {
    let none = source_with(&[]);
    assert_eq!((holes(&none), named(&none)), (vec![], vec![A, B, C, D]));
    let two = source_with(&[B, D]);
    assert_eq!(
        (holes(&two), named(&two), leaves(&two)),
        (vec![B, D], vec![B, D], vec![A, C])
    );
    assert_eq!(arities(&two), arities(&none));
    assert!(has_hole(&two, &[A, B, F]) && !has_hole(&two, &[A, C, F]) && !has_hole(&none, &[B]));
}

fn numbers_of(call: &Call) -> Vec<u32> {
    faults(call).into_iter().map(|fault| fault.number).collect()
}

fn compile(holes: &[usize], rule: &[Operator]) -> Vec<u32> {
    numbers_of(&Call::compile(
        &source_with(holes),
        &operator_words(rule),
        vec![0; 99],
    ))
}

#[test]
fn a_product_or_closure_may_name_another_constant() {
    for named in [A, B, C, D] {
        for rule in [
            &[Symbol(A), Closure(named)][..],
            &[Symbol(A), Symbol(B), Product(named)],
        ] {
            assert_eq!(compile(&[], rule), []);
            assert_eq!(compile(&[A, B, C, D], rule), []);
            let refused = if named == C { vec![] } else { vec![4] };
            assert_eq!(compile(&[C], rule), refused);
        }
        // As a symbol it may be any.
        assert_eq!(compile(&[C], &[Symbol(named)]), []);
    }
    assert_eq!(compile(&[C], &[Symbol(G), Closure(D)]), [4, 5]);
}

#[test]
fn a_hole_in_a_chapter_has_another_number() {
    let own = Holed::numbered(1);
    let hole = own.with_holes(&[0], &[0]);
    let leaf = own.tree(&[0]);
    assert_eq!(numbers_of(&own.run(&leaf)), []);
    assert_eq!(numbers_of(&own.run(&hole)), [26]);
    assert_eq!(numbers_of(&own.exchange(&leaf, 0, &leaf)), []);
    assert_eq!(faults(&own.exchange(&hole, 0, &leaf)), [HOLE_IN_CHAPTER]);
    assert_eq!(faults(&own.exchange(&leaf, 0, &hole)), [HOLE_IN_REPLACEMENT]);
    assert_eq!(
        faults(&own.exchange(&hole, 0, &hole)),
        [HOLE_IN_CHAPTER, HOLE_IN_REPLACEMENT]
    );
    // What is behind the used elements is no part of the chapter, and a word that is no element holds no
    // hole.
    let mut call = own.exchange(&leaf, 0, &leaf);
    assert!(call.tree[1..].iter().all(|word| *word == hole[0]));
    call.tree[0] = hole[0] | 1 << 8;
    assert_eq!(numbers_of(&call), [10]);
}

#[test]
fn the_two_conditions_of_26_stand_elsewhere() {
    let of_exchange = conditions(Operation::Exchange);
    assert_eq!(
        (of_exchange[7], of_exchange[11]),
        (HOLE_IN_CHAPTER, HOLE_IN_REPLACEMENT)
    );
    assert_eq!(HOLE_IN_REPLACEMENT.to_string(), "second 26");
    assert!(!conditions(Operation::List).contains(&HOLE_IN_CHAPTER));
}

#[test]
fn a_hole_changes_a_table() {
    let table = |holes: &[usize]| automaton::table(&source_with(holes), &expression());
    assert_eq!(table(&[]).map(|words| words.len()), Some(37));
    assert!([&[C, D][..], &[A], &[A, B, C, D]]
        .iter()
        .all(|holes| table(holes) == table(&[])));
}

#[test]
fn a_hole_is_no_member_of_a_language() {
    // f(c,c) by a + c over c has all four trees, of which one has no hole.
    let rule = [
        Symbol(C),
        Symbol(C),
        Symbol(F),
        Symbol(A),
        Symbol(C),
        Operator::Union,
        Product(C),
    ];
    let alphabet = source_with(&[C]);
    let read = Expression::read(&alphabet, &operator_words(&rule)).expect("an expression");
    let mut all = members(&read, &arities(&alphabet), 9);
    assert_eq!(all.len(), 4);
    all.retain(|tree| !has_hole(&alphabet, tree));
    assert_eq!(all, [vec![A, A, F]].into());
}

#[test]
fn the_program_takes_a_hole() {
    let rule = operator_words(&[Symbol(D)]);
    let print =
        |holes: &[usize], nodes: &[usize]| expected(&encode(&source_with(holes), &rule, &node_words(nodes)));
    assert_eq!(print(&[], &[D]), "nodes 1 states 1 hits 1\n0 3 1\n");
    assert_eq!(print(&[D], &[D]), "refused 26\n");
    assert_eq!(print(&[D], &[A]), "nodes 1 states 1 hits 0\n");
    let long = |leaf: usize, nodes: usize| [vec![leaf], vec![G; nodes - 1]].concat();
    assert_eq!(print(&[D], &long(D, 256)), "refused 26\n");
    assert_eq!(print(&[D], &long(D, 257)), "refused 9\n");
    assert_eq!(print(&[D], &long(A, 257)), "refused 9\n");
}

#[test]
fn a_shape_has_no_leaf_where_it_is_asked_for() {
    for nodes in [1, 2, 3, 4, 9, 100, 700] {
        for place in 0..=nodes.max(2) - 2 {
            let [lower, higher] = [low, high].map(|part| {
                let shape = with_leaf(nodes, place, part);
                assert_eq!((shape.len(), shape[place]), (nodes, 0));
                *heights(&shape_children(&shape)).last().expect("a root")
            });
            assert!(lower <= 12 && lower <= higher && higher <= HEIGHT_LIMIT);
            assert!(nodes < 100 || higher > nodes / 3);
        }
    }
}

#[test]
fn a_hole_has_another_number_than_asked_for() {
    for hole in [0, 1, 4, 5, 32, 63] {
        let own = Holed::numbered(hole);
        assert_eq!(holes(&own.alphabet), [hole]);
        assert_eq!(own.alphabet.len(), 6.max(hole + 1));
        let of_symbols: Vec<usize> = own
            .symbols
            .iter()
            .map(|symbol| arities(&own.alphabet)[*symbol])
            .collect();
        assert_eq!(of_symbols, [0, 1, 2, 3, 4]);
        assert_eq!(leaves(&own.alphabet), own.symbols[..1]);
    }
}
