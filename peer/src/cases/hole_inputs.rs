//! Document 02's U8 in the program `marklist`: a hole in the chapter is answered by 26 in Run's place, behind
//! Compile's numbers and behind 9, which the program says of over 256 elements.

use crate::cases::examples::{self, A, B, C, D, F, G, H};
use crate::cases::holed::Holed;
use crate::cases::holes::source_with;
use crate::cases::program::{same, Compared};
use crate::cases::shapes::{high, low, with_leaf};
use crate::compare::Comparison;
use crate::limits::{CONSTANT_LIMIT, PROGRAM_LIMIT};
use crate::marklist::{encode, expected};
use crate::words::{entry_word, node_word, node_words, Entry, Operator};

pub fn compare(comparison: &mut Comparison, program: &mut Compared) {
    source(comparison, program);
    numbers(comparison, program);
    every_place(comparison, program);
    lengths(comparison, program);
}

const WRONG: &str = "an input with holes prints otherwise";

/// Expects the program to print this.
pub fn expect(
    comparison: &mut Comparison,
    program: &mut Compared,
    wrong: &str,
    [alphabet, rule, tree]: [&[u32]; 3],
    printed: &str,
) {
    let bytes = encode(alphabet, rule, tree);
    let own = expected(&bytes);
    comparison.check(wrong, own == printed, || {
        format!("    {own} instead of {printed}")
    });
    same(comparison, program, wrong, &bytes, true);
}

/// The source's rule with c and d as holes has f(a,b) as its only member without holes up to this size.
fn source(comparison: &mut Comparison, program: &mut Compared) {
    let alphabet = source_with(&[C, D]);
    let rule = examples::expression();
    let tree = node_words(&[A, B, F, A, G, H, F]);
    let printed = "nodes 7 states 29 hits 1\n2 4 3\n";
    expect(comparison, program, WRONG, [&alphabet, &rule, &tree], printed);
    let filled = [
        &rule[..],
        &[Operator::Symbol(A).word(), Operator::Product(D).word()],
    ]
    .concat();
    let printed = "nodes 7 states 35 hits 4\n0 0 1\n2 4 3\n3 0 1\n4 5 2\n";
    expect(comparison, program, WRONG, [&alphabet, &filled, &tree], printed);
    for holes in [&[A][..], &[B], &[A, B, C, D]] {
        let alphabet = source_with(holes);
        let rule = [Operator::Symbol(A).word()];
        expect(
            comparison,
            program,
            WRONG,
            [&alphabet, &rule, &tree],
            "refused 26\n",
        );
    }
    let lone = node_words(&[D]);
    expect(
        comparison,
        program,
        WRONG,
        [&alphabet, &rule, &lone],
        "refused 26\n",
    );
}

/// Every number that can stand beside 26, and the rules' numbers for holes.
fn numbers(comparison: &mut Comparison, program: &mut Compared) {
    let alphabet = source_with(&[C, D]);
    let rule = examples::expression();
    let tree = examples::tree();
    let with = |place: usize, word: u32| {
        let mut changed = alphabet.clone();
        changed[place] = word;
        changed
    };
    let many = [&alphabet[..], &[Entry::Hole.word(); CONSTANT_LIMIT - 3]].concat();
    let over_a = [Operator::Symbol(A).word(), Operator::Closure(A).word()];
    let open = [Operator::Symbol(A).word(), Operator::Symbol(C).word()];
    let long = vec![Operator::Empty.word(); 65];
    let unknown = [&tree[..], &[node_word(200)]].concat();
    let two = [&tree[..], &tree[..]].concat();
    let cases: [(&[u32], &[u32], &[u32], u32); 11] = [
        (&alphabet, &rule, &tree, 26),
        (&with(G, entry_word(1) | 1 << 8), &rule, &tree, 1),
        (&with(C, Entry::Hole.word() | 1 << 9), &rule, &tree, 1),
        (&many, &rule, &tree, 2),
        (&alphabet, &long, &tree, 3),
        (&alphabet, &over_a, &tree, 4),
        (&source_with(&[C]), &rule, &tree, 4),
        (&alphabet, &open, &tree, 5),
        (&alphabet, &rule, &[], 9),
        (&alphabet, &rule, &unknown, 10),
        (&alphabet, &rule, &two, 11),
    ];
    for (alphabet, rule, tree, number) in cases {
        let printed = format!("refused {number}\n");
        expect(comparison, program, WRONG, [alphabet, rule, tree], &printed);
    }
}

/// A hole at many places of the longest chapters that the program takes.
fn every_place(comparison: &mut Comparison, program: &mut Compared) {
    let own = Holed::numbered(0);
    let rule = [Operator::Symbol(0).word(), Operator::Closure(0).word()];
    for place in (0..PROGRAM_LIMIT - 2).step_by(9).chain([PROGRAM_LIMIT - 2]) {
        let part = if place % 2 == 0 { low } else { high };
        let shape = with_leaf(PROGRAM_LIMIT, place, part);
        let tree = own.with_holes(&shape, &[place]);
        expect(
            comparison,
            program,
            WRONG,
            [&own.alphabet, &rule, &tree],
            "refused 26\n",
        );
    }
}

/// Chapters of about the most elements, with a hole and without.
fn lengths(comparison: &mut Comparison, program: &mut Compared) {
    let own = Holed::numbered(5);
    let rule = [
        Operator::Symbol(5).word(),
        Operator::Symbol(0).word(),
        Operator::Product(5).word(),
    ];
    for nodes in [
        1,
        PROGRAM_LIMIT - 1,
        PROGRAM_LIMIT,
        PROGRAM_LIMIT + 1,
        600,
        4096,
        4097,
    ] {
        let shape = low(nodes);
        let with = own.with_holes(&shape, &[0]);
        let printed = if nodes > PROGRAM_LIMIT {
            "refused 9\n"
        } else {
            "refused 26\n"
        };
        expect(comparison, program, WRONG, [&own.alphabet, &rule, &with], printed);
        let without = encode(&own.alphabet, &rule, &own.tree(&shape));
        same(
            comparison,
            program,
            "a chapter without its hole prints otherwise",
            &without,
            false,
        );
    }
}
