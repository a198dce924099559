//! The published examples: document 01, "The source's own example" and the list below it, with the figures it prints.

use crate::call::Call;
use crate::compare::Comparison;
use crate::language::literal::members;
use crate::language::Expression;
use crate::words::{self, entry_word, node_words, operator_words, Operator};

/// Symbols of the source's alphabet: a, b, c, d of arity 0, f of arity 2, g and h of arity 1.
pub const A: usize = 0;
pub const B: usize = 1;
pub const C: usize = 2;
pub const D: usize = 3;
pub const F: usize = 4;
pub const G: usize = 5;
pub const H: usize = 6;

pub fn alphabet() -> Vec<u32> {
    [0, 0, 0, 0, 2, 1, 1].map(entry_word).to_vec()
}

/// a b f c g d (product over c) union (closure over d).
pub fn expression() -> Vec<u32> {
    operator_words(&[
        Operator::Symbol(A),
        Operator::Symbol(B),
        Operator::Symbol(F),
        Operator::Symbol(C),
        Operator::Symbol(G),
        Operator::Symbol(D),
        Operator::Product(C),
        Operator::Union,
        Operator::Closure(D),
    ])
}

/// a b f d g h f.
pub fn tree() -> Vec<u32> {
    node_words(&[A, B, F, D, G, H, F])
}

pub fn compare(comparison: &mut Comparison) {
    source(comparison);
    exchanges(comparison);
    small_rules(comparison);
}

fn source(comparison: &mut Comparison) {
    let compiled = comparison.call(
        "the source's rule has another table",
        &Call::compile(&alphabet(), &expression(), vec![0; 50]),
    );
    // Document 01 publishes the head and 36 words in all; document 02's U1 adds one.
    let is_published =
        compiled.values[0] == 37 && compiled.after.table.starts_with(&[0x8000_7418, 0xc000_0025]);
    comparison.check(
        "the source's table is not as published",
        is_published,
        String::new,
    );
    let found = matches(comparison, &expression(), &tree());
    comparison.check(
        "the source's example has other hits",
        found == [2, 3, 4],
        String::new,
    );
}

/// Exchange element 4 for d, and instead for a b f g.
fn exchanges(comparison: &mut Comparison) {
    let published: [(&[usize], [u32; 2], &[u32]); 2] =
        [(&[D], [6, 2], &[2, 3]), (&[A, B, F, G], [9, 4], &[2, 5, 6])];
    for (replacement, answer, hits) in published {
        let table = compiled(comparison, &expression());
        let mut chapter = tree();
        chapter.resize(12, 0);
        let marked = comparison.call(
            "the source's example has other marks",
            &Call::run(&alphabet(), &table, &tree(), vec![0; 12]),
        );
        let exchanged = comparison.call(
            "a published exchange differs",
            &Call::exchange(
                &alphabet(),
                &table,
                chapter,
                7,
                marked.after.sets,
                4,
                &node_words(replacement),
            ),
        );
        let listed = comparison.call(
            "a published exchange has other hits",
            &Call::list(
                &alphabet(),
                &table,
                answer[0] as usize,
                &exchanged.after.sets,
                vec![0; 12],
            ),
        );
        let is_published = exchanged.values == answer && listed.hits() == hits;
        comparison.check("an exchange is not as published", is_published, String::new);
    }
}

/// What is wrong otherwise, a rule, the symbols of a tree, and the hits in it.
type Published = (&'static str, Vec<Operator>, &'static [usize], &'static [u32]);

/// The rules of the list below the source's example.
fn small_rules(comparison: &mut Comparison) {
    use Operator::{Closure, Empty, Product, Symbol, Union};
    let f_ab = [Symbol(A), Symbol(B), Symbol(F)];
    let by_empty = |first: [Operator; 3]| [&first[..], &[Empty, Product(C)]].concat();
    let published: [Published; 10] = [
        ("d alone misses d", vec![Symbol(D)], &[D], &[0]),
        ("the empty rule has a hit", vec![Empty], &[A, B, F], &[]),
        (
            "the closure of the empty rule hits other than c",
            vec![Empty, Closure(C)],
            &[C, A, F, C, G, F],
            &[0, 3],
        ),
        (
            "f(a,b) by the empty rule loses f(a,b)",
            by_empty(f_ab),
            &[A, B, F],
            &[2],
        ),
        (
            "f(a,c) by the empty rule has a member",
            by_empty([Symbol(A), Symbol(C), Symbol(F)]),
            &[A, C, F],
            &[],
        ),
        (
            "one member is put at all places of c",
            vec![
                Symbol(C),
                Symbol(C),
                Symbol(F),
                Symbol(A),
                Symbol(B),
                Union,
                Product(C),
            ],
            &[A, B, F],
            &[2],
        ),
        (
            "substitution by f(c,a) loses f(c,a)",
            vec![Symbol(C), Symbol(C), Symbol(A), Symbol(F), Product(C)],
            &[C, A, F],
            &[2],
        ),
        (
            "substitution looks again inside what it put",
            vec![Symbol(C), Symbol(C), Symbol(A), Symbol(F), Product(C)],
            &[C, A, F, A, F],
            &[2],
        ),
        (
            "a closure's step leaves out the step before",
            vec![Symbol(C), Symbol(C), Symbol(F), Symbol(A), Union, Closure(C)],
            &[C, C, C, F, F],
            &[0, 1, 2, 3, 4],
        ),
        (
            "a closure's members at two steps are not joined",
            vec![Symbol(C), Symbol(C), Symbol(F), Symbol(A), Union, Closure(C)],
            &[C, C, C, F, F, A, F],
            &[0, 1, 2, 3, 4, 5, 6],
        ),
    ];
    for (wrong, operators, symbols, hits) in published {
        let expression = operator_words(&operators);
        let found = matches(comparison, &expression, &node_words(symbols));
        comparison.check(wrong, found == hits, String::new);
        comparison.check(
            wrong,
            literal_root(&expression, symbols) == has_root(hits, symbols),
            String::new,
        );
    }
    let table = compiled(comparison, &operator_words(&[Symbol(D)]));
    let marked = comparison.call(
        "d alone has other marks",
        &Call::run(&alphabet(), &table, &node_words(&[D]), vec![0; 1]),
    );
    comparison.check("d alone has not one cell", marked.values == [1, 1], String::new);
}

fn has_root(hits: &[u32], symbols: &[usize]) -> bool {
    hits.contains(&(symbols.len() as u32 - 1))
}

/// Whether the whole tree is a member by the literal reading.
fn literal_root(expression: &[u32], symbols: &[usize]) -> bool {
    let read = Expression::read(&alphabet(), expression).expect("an expression");
    members(&read, &words::arities(&alphabet()), symbols.len()).contains(symbols)
}

fn compiled(comparison: &mut Comparison, expression: &[u32]) -> Vec<u32> {
    let compiled = comparison.call(
        "a published rule has another table",
        &Call::compile(&alphabet(), expression, vec![0; 200]),
    );
    compiled.table().to_vec()
}

/// The hits of a rule in a tree, by Compile, Run and List.
fn matches(comparison: &mut Comparison, expression: &[u32], tree: &[u32]) -> Vec<u32> {
    let table = compiled(comparison, expression);
    let marked = comparison.call(
        "a published rule has other marks",
        &Call::run(&alphabet(), &table, tree, vec![0; 100]),
    );
    let listed = comparison.call(
        "a published rule has other hits",
        &Call::list(
            &alphabet(),
            &table,
            tree.len(),
            &marked.after.sets,
            vec![0; tree.len()],
        ),
    );
    listed.hits().to_vec()
}
