//! Document 02's U8: a rule's hits are the members without holes of its language, which is the one that
//! document 01 gives. Small rules with the figures that follow from substitution, and rules whose members are
//! compared tree by tree.

use crate::call::Call;
use crate::cases::examples::{A, B, C, D, F, G, H};
use crate::cases::holes::source_with;
use crate::cases::patterns::{Pattern, Patterns};
use crate::cases::random::marked_hits;
use crate::chance::Random;
use crate::compare::Comparison;
use crate::generate::holes;
use crate::language::literal::{self, members};
use crate::language::Expression;
use crate::limits::TABLE_LIMIT;
use crate::words::{self, node_words, operator_words, Operator};
use Operator::{Closure, Empty, Product, Symbol, Union};

pub fn compare(comparison: &mut Comparison, seed: u64, cases: u64) {
    for case in small_rules() {
        small_rule(comparison, case);
    }
    comparison.random_cases("members without holes", seed, cases, |comparison, _, random| {
        all_trees(comparison, random);
    });
}

/// What is wrong otherwise, the holes, a rule, the symbols of a tree, and the hits in it.
pub type Case = (
    &'static str,
    &'static [usize],
    Vec<Operator>,
    &'static [usize],
    &'static [u32],
);

fn small_rules() -> Vec<Case> {
    let pair = [Symbol(C), Symbol(C), Symbol(F)];
    let a_or_b = [Symbol(A), Symbol(B), Union];
    let chain = [Symbol(C), Symbol(G)];
    // The source's rule: the closure over d of f(a,b) + (g(c) by d over c).
    let g_by_d = [Symbol(C), Symbol(G), Symbol(D), Product(C)];
    let source = [
        &[Symbol(A), Symbol(B), Symbol(F)][..],
        &g_by_d,
        &[Union, Closure(D)],
    ]
    .concat();
    vec![
        ("a hole's rule has a hit", &[C], vec![Symbol(C)], &[A, B, F], &[]),
        (
            "one member is put at all places of a hole",
            &[C],
            [&pair[..], &a_or_b, &[Product(C)]].concat(),
            &[A, B, F, B, B, F, F],
            &[2, 5],
        ),
        (
            "a closure over a hole loses a member",
            &[C],
            [&chain[..], &[Symbol(A), Union, Closure(C)]].concat(),
            &[A, G, G, B, G, F],
            &[0, 1, 2],
        ),
        (
            "a closure whose members all have a hole has a hit",
            &[C],
            [&chain[..], &[Closure(C)]].concat(),
            &[A, G, G],
            &[],
        ),
        (
            "a filled closure loses a member",
            &[C, D],
            [&pair[..], &[Closure(C), Symbol(A), Product(C)]].concat(),
            &[A, A, A, F, F, B, F],
            &[0, 1, 2, 3, 4],
        ),
        (
            "a hole by the empty rule has a member",
            &[C],
            vec![Symbol(A), Symbol(C), Symbol(F), Empty, Product(C)],
            &[A, A, F],
            &[],
        ),
        (
            "a rule without the hole loses a member by the empty rule",
            &[C],
            vec![Symbol(A), Symbol(B), Symbol(F), Empty, Product(C)],
            &[A, B, F],
            &[2],
        ),
        (
            "a hole is looked for again inside what was put there",
            &[C],
            vec![
                Symbol(C),
                Symbol(C),
                Symbol(A),
                Symbol(F),
                Product(C),
                Symbol(B),
                Product(C),
            ],
            &[B, A, F, A, F],
            &[2],
        ),
        (
            "two holes are filled otherwise",
            &[C, D],
            vec![
                Symbol(C),
                Symbol(D),
                Symbol(F),
                Symbol(A),
                Product(C),
                Symbol(B),
                Product(D),
            ],
            &[A, B, F, B, A, F, F],
            &[2],
        ),
        (
            "the source's rule with holes has other hits",
            &[C, D],
            source.clone(),
            &[A, B, F, A, G, H, F],
            &[2],
        ),
        (
            "the source's rule with its hole filled has other hits",
            &[C, D],
            [&source[..], &[Symbol(B), Product(D)]].concat(),
            &[A, B, F, G, B, G, H, F],
            &[1, 2, 3, 4, 5],
        ),
    ]
}

/// The hits are the published ones, by the literal reading too, and the same where the holes are not marked.
fn small_rule(comparison: &mut Comparison, (wrong, holes, operators, tree, hits): Case) {
    let rule = operator_words(&operators);
    for alphabet in [source_with(holes), source_with(&[])] {
        let compiled = comparison.call(wrong, &Call::compile(&alphabet, &rule, vec![0; TABLE_LIMIT]));
        let table = compiled.table();
        let marked = comparison.call(
            wrong,
            &Call::run(&alphabet, table, &node_words(tree), vec![0; 99]),
        );
        let sets = &marked.after.sets;
        let listed = comparison.call(wrong, &Call::list(&alphabet, table, tree.len(), sets, vec![0; 9]));
        let read = Expression::read(&alphabet, &rule).expect("an expression");
        let literal = members(&read, &words::arities(&alphabet), tree.len());
        let is_hit = hits.contains(&(tree.len() as u32 - 1));
        let is_right = listed.hits() == hits && literal.contains(tree) == is_hit;
        comparison.check(wrong, is_right, || format!("    {:?}", listed.hits()));
    }
}

/// All small trees with a random rule.
fn all_trees(comparison: &mut Comparison, random: &mut Random) {
    let pattern = Patterns::over(holes::alphabet).draw(random);
    every_tree(comparison, random, &pattern, 60);
}

/// All trees up to a size, at most so many: those with a hole are refused, and of the others the root is a hit
/// exactly if the literal reading has it.
pub fn every_tree(comparison: &mut Comparison, random: &mut Random, pattern: &Pattern, most: usize) {
    let Pattern { alphabet, expression } = pattern;
    let arities = words::arities(alphabet);
    let limit = literal::size_with_at_most(&arities, most);
    let read = Expression::read(alphabet, expression).expect("an expression");
    let members = members(&read, &arities, limit);
    let compile = Call::compile(alphabet, expression, vec![0; TABLE_LIMIT]);
    let compiled = comparison.call("a small rule has another table", &compile);
    for tree in literal::trees(&arities, limit) {
        let hits = marked_hits(comparison, random, alphabet, compiled.table(), &tree);
        let is_right = hits.last() == Some(&members.contains(&tree));
        if !words::has_hole(alphabet, &tree) {
            comparison.check("a hit is no member without holes", is_right, || {
                format!("    {tree:?}\n{compile}")
            });
        }
    }
}
