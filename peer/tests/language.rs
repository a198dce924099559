//! The two readings of a language against each other and against document 01's examples.

use peer::cases::examples::{alphabet, A, B, C, F, G};
use peer::cases::patterns::{pattern, Patterns};
use peer::chance::Random;
use peer::draw;
use peer::generate::{self, holes};
use peer::language::literal::{self, members};
use peer::language::membership::Membership;
use peer::language::{Expression, Tree};
use peer::words::{arities, operator_words, Operator};
use std::collections::BTreeSet;
use Operator::{Closure, Empty, Product, Symbol, Union};

fn expression(operators: &[Operator]) -> Expression {
    Expression::read(&alphabet(), &operator_words(operators)).expect("an expression")
}

fn literal(operators: &[Operator], limit: usize) -> BTreeSet<Tree> {
    members(&expression(operators), &arities(&alphabet()), limit)
}

fn decided(operators: &[Operator], tree: &[usize]) -> bool {
    let read = expression(operators);
    let root = Membership::new(&read, &arities(&alphabet())).subtrees(tree).pop();
    root == Some(true)
}

#[test]
fn one_member_is_put_at_all_places_of_the_constant() {
    let rule = [
        Symbol(C),
        Symbol(C),
        Symbol(F),
        Symbol(A),
        Symbol(B),
        Union,
        Product(C),
    ];
    let all: BTreeSet<Tree> = [[A, A, F], [A, B, F], [B, A, F], [B, B, F]]
        .map(|tree| tree.to_vec())
        .into();
    assert_eq!(literal(&rule, 9), all);
    assert!(all.iter().all(|tree| decided(&rule, tree)));
}

#[test]
fn a_product_by_the_empty_rule_is_read_as_empty() {
    let kept = [Symbol(A), Symbol(B), Symbol(F), Empty, Product(C)];
    assert_eq!(literal(&kept, 9), [vec![A, B, F]].into());
    assert!(decided(&kept, &[A, B, F]));
    let lost = [Symbol(A), Symbol(C), Symbol(F), Empty, Product(C)];
    assert!(literal(&lost, 9).is_empty());
    assert!(!decided(&lost, &[A, C, F]));
}

#[test]
fn substitution_looks_again_inside_what_it_put() {
    let rule = [Symbol(C), Symbol(C), Symbol(A), Symbol(F), Product(C)];
    assert_eq!(literal(&rule, 9), [vec![C, A, F]].into());
    assert!(!decided(&rule, &[C, A, F, A, F]));
}

#[test]
fn a_closure_step_leaves_out_the_step_before() {
    let rule = [Symbol(C), Symbol(C), Symbol(F), Symbol(A), Union, Closure(C)];
    for tree in [vec![C, C, C, F, F], vec![C, C, F, C, F], vec![A, C, C, F, F]] {
        assert!(literal(&rule, 5).contains(&tree));
        assert!(decided(&rule, &tree));
    }
}

#[test]
fn a_product_misses_the_constant_of_a_closure_inside() {
    // The closure's c stands for the product's G as well: g(g(a)), g(a) and a, and no longer c.
    let rule = [Symbol(C), Symbol(G), Closure(C), Symbol(A), Product(C)];
    assert_eq!(literal(&rule, 3), [vec![A], vec![A, G], vec![A, G, G]].into());
    assert!(decided(&rule, &[A, G, G]));
    assert!(!decided(&rule, &[C]));
}

#[test]
fn a_product_misses_the_constants_that_one_inside_has_put() {
    // (c by f(a,b) over c) by g(c) over a: f(g(c), b).
    let rule = [
        Symbol(C),
        Symbol(A),
        Symbol(B),
        Symbol(F),
        Product(C),
        Symbol(C),
        Symbol(G),
        Product(A),
    ];
    assert_eq!(literal(&rule, 9), [vec![C, G, B, F]].into());
    assert!(decided(&rule, &[C, G, B, F]));
    assert!(!decided(&rule, &[A, B, F]));
}

#[test]
fn the_literal_members_are_not_those_decided() {
    compare_readings(Patterns::over(generate::alphabet));
}

#[test]
fn the_literal_members_over_holes_are_not_those_decided() {
    compare_readings(Patterns::over(holes::alphabet));
}

#[test]
fn the_literal_members_of_anything_are_not_those_decided() {
    compare_readings(Patterns::with_anything_over(generate::alphabet));
    compare_readings(Patterns::with_anything_over(holes::alphabet));
}

/// All trees up to a size, those with holes too, with rules that are drawn so.
fn compare_readings(patterns: Patterns) {
    for case in 0..300 {
        let mut random = Random::of_case("test", 77, case);
        let pattern = patterns.draw(&mut random);
        let arities = arities(&pattern.alphabet);
        let read = Expression::read(&pattern.alphabet, &pattern.expression).expect("an expression");
        let limit = literal::size_with_at_most(&arities, 120);
        let literal = members(&read, &arities, limit);
        let membership = Membership::new(&read, &arities);
        for tree in literal::trees(&arities, limit) {
            let decided = membership.subtrees(&tree).pop() == Some(true);
            assert_eq!(literal.contains(&tree), decided, "case {case}: {tree:?}");
        }
    }
}

#[test]
fn a_drawn_member_is_no_member() {
    let mut drawn = 0;
    for case in 0..4000 {
        let mut random = Random::of_case("test", 78, case);
        let pattern = match case % 4 {
            0 => Patterns::with_anything_over(generate::alphabet).draw(&mut random),
            1 => Patterns::with_anything_over(holes::alphabet).draw(&mut random),
            _ => pattern(&mut random),
        };
        let arities = arities(&pattern.alphabet);
        let read = Expression::read(&pattern.alphabet, &pattern.expression).expect("an expression");
        if let Some(tree) = draw::member(&mut random, &pattern.alphabet, &read, 60) {
            drawn += 1;
            let decided = Membership::new(&read, &arities).subtrees(&tree);
            assert_eq!(decided.last(), Some(&true), "case {case}: {tree:?}");
        }
    }
    assert!(drawn > 2500, "{drawn} members drawn");
}

#[test]
fn the_number_of_trees_of_a_size_is_counted_wrongly() {
    let arities = arities(&alphabet());
    for limit in 1..=5 {
        let most = literal::trees(&arities, limit).len();
        assert_eq!(literal::size_with_at_most(&arities, most), limit);
        assert_eq!(literal::size_with_at_most(&arities, most - 1), limit - 1);
    }
}
