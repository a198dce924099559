//! Document 02's U7: what `anything` means. Its language is every tree over the alphabet, and products and closures around
//! it mean what substitution says of that language. Small rules with the figures that follow from it, among them patterns
//! of document 002.

use crate::call::Call;
use crate::cases::examples::{A, B, C, D, F, G, H};
use crate::cases::hole_members::Case;
use crate::cases::holes::source_with;
use crate::compare::Comparison;
use crate::language::literal::members;
use crate::language::membership::Membership;
use crate::language::Expression;
use crate::limits::TABLE_LIMIT;
use crate::postfix;
use crate::words::{self, node_words, operator_words, Operator};
use Operator::{Anything, Closure, Empty, Product, Symbol, Union};

pub fn compare(comparison: &mut Comparison) {
    for case in small_rules() {
        small_rule(comparison, case);
    }
}

/// Over the source's alphabet: a, b, c, d of arity 0, f of arity 2, g and h of arity 1.
fn small_rules() -> Vec<Case> {
    let by = |rule: &[Operator]| [&[Anything], rule, &[Product(C)]].concat();
    let pair = [Symbol(C), Anything, Symbol(F)];
    vec![
        (
            "anything misses an element",
            &[],
            vec![Anything],
            &[A, B, F, C, G, D, H, F, F],
            &[0, 1, 2, 3, 4, 5, 6, 7, 8],
        ),
        (
            // Document 002's example 2: a2(S, a1(S)) in a2(a2(a0, a1(a0)), a1(a0)).
            "a pattern of document 002 has other hits",
            &[],
            vec![Anything, Anything, Symbol(G), Symbol(F)],
            &[A, A, G, F, A, G, F],
            &[3, 6],
        ),
        (
            // Its figure 4: a2(a1(S), a0).
            "a second pattern of document 002 has other hits",
            &[],
            vec![Anything, Symbol(G), Symbol(A), Symbol(F)],
            &[B, G, A, F, G, A, F, A, F],
            &[3, 6],
        ),
        (
            "f(anything, a) hits otherwise",
            &[],
            vec![Anything, Symbol(A), Symbol(F)],
            &[B, A, F, A, F, A, B, F, F],
            &[2, 4],
        ),
        (
            "a product does not replace each c of anything",
            &[],
            by(&[Symbol(A)]),
            &[A, B, F, C, G, F],
            &[0, 1, 2],
        ),
        (
            "anything by g(c) hits otherwise",
            &[],
            by(&[Symbol(C), Symbol(G)]),
            &[C, G, A, F, C, F],
            &[1, 2, 3],
        ),
        (
            "anything by the empty rule hits otherwise",
            &[],
            by(&[Empty]),
            &[A, B, F, C, G, F],
            &[0, 1, 2],
        ),
        (
            "anything by c over c misses an element",
            &[],
            by(&[Symbol(C)]),
            &[A, C, F, C, G, F],
            &[0, 1, 2, 3, 4, 5],
        ),
        (
            "anything by anything misses an element",
            &[],
            by(&[Anything]),
            &[A, C, F, C, G, F],
            &[0, 1, 2, 3, 4, 5],
        ),
        (
            "f(c,c) by anything hits otherwise",
            &[],
            vec![Symbol(C), Symbol(C), Symbol(F), Anything, Product(C)],
            &[A, C, F, C, G, F, H],
            &[2, 5],
        ),
        (
            "a by anything over c hits other than a",
            &[],
            vec![Symbol(A), Anything, Product(C)],
            &[A, C, F],
            &[0],
        ),
        (
            "the closure of f(c, anything) hits otherwise",
            &[],
            [&pair[..], &[Closure(C)]].concat(),
            &[C, A, F, B, G, F, A, C, F, F],
            &[0, 2, 5, 7, 9],
        ),
        (
            "the closure of f(c, anything) by a over c hits otherwise",
            &[],
            [&pair[..], &[Closure(C), Symbol(A), Product(C)]].concat(),
            &[A, C, F, A, B, F, F],
            &[0, 3, 5],
        ),
        (
            "the closure of anything misses an element",
            &[],
            vec![Anything, Closure(C)],
            &[A, C, F, C, G, F],
            &[0, 1, 2, 3, 4, 5],
        ),
        (
            "a union with anything misses an element",
            &[],
            vec![Symbol(A), Anything, Union],
            &[A, B, F],
            &[0, 1, 2],
        ),
        (
            "two products over anything hit otherwise",
            &[],
            vec![Anything, Symbol(D), Symbol(G), Product(C), Symbol(A), Product(D)],
            &[A, G, B, F, D, C, F, F],
            &[0, 1, 2, 3],
        ),
        (
            "anything over a hole misses an element",
            &[C],
            vec![Anything],
            &[A, B, F, D, G, F],
            &[0, 1, 2, 3, 4, 5],
        ),
        (
            "a hole in anything is not filled",
            &[C],
            vec![Anything, Symbol(C), Symbol(F), Symbol(B), Product(C)],
            &[A, B, F, B, G, B, F, F],
            &[2, 6],
        ),
    ]
}

/// The hits are the figures, and those of the language by the decision, and for small subtrees by the literal reading; and
/// they are the same where the holes are not marked.
fn small_rule(comparison: &mut Comparison, (wrong, holes, operators, tree, hits): Case) {
    const SMALL: usize = 4;
    let expression = operator_words(&operators);
    for alphabet in [source_with(holes), source_with(&[])] {
        let call = Call::compile(&alphabet, &expression, vec![0; TABLE_LIMIT]);
        let table = comparison.call(wrong, &call).table().to_vec();
        let room = vec![0; 2 * tree.len()];
        let marked = comparison.call(
            wrong,
            &Call::run(&alphabet, &table, &node_words(tree), room.clone()),
        );
        let list = Call::list(&alphabet, &table, tree.len(), &marked.after.sets, room);
        let listed = comparison.call(wrong, &list);
        let arities = words::arities(&alphabet);
        let read = Expression::read(&alphabet, &expression).expect("an expression");
        let literal = members(&read, &arities, SMALL);
        let decided = Membership::new(&read, &arities).subtrees(tree);
        let sizes = postfix::sizes(&postfix::tree_children(tree, &arities));
        let is_right = (0..tree.len()).all(|node| {
            let is_hit = hits.contains(&(node as u32));
            let subtree = &tree[node + 1 - sizes[node]..=node];
            decided[node] == is_hit && (subtree.len() > SMALL || literal.contains(subtree) == is_hit)
        });
        comparison.check(wrong, is_right && listed.hits() == hits, || {
            format!("    {:?}\n{list}", listed.hits())
        });
    }
}
