//! Document 02's U7 in the program `marklist`: rules with `anything`, tables of the most words, which its memory holds, and
//! 25 behind Compile's other numbers and before Run's.

use crate::cases::aimed;
use crate::cases::anything_faults::unions;
use crate::cases::examples::{self, A, B, C, F, G};
use crate::cases::hole_inputs::expect;
use crate::cases::holes::source_with;
use crate::cases::patterns::Pattern;
use crate::cases::program::{same, Compared};
use crate::chance::Random;
use crate::compare::Comparison;
use crate::generate;
use crate::limits::{COMPILED_LIMIT, CONSTANT_LIMIT, EXPRESSION_LIMIT, PROGRAM_LIMIT, TABLE_LIMIT};
use crate::marklist::{encode, expected};
use crate::postfix;
use crate::words::{entry_word, node_word, node_words, operator_words, Entry, Operator};
use Operator::{Anything, Closure, Product, Symbol};

pub fn compare(comparison: &mut Comparison, program: &mut Compared) {
    source(comparison, program);
    lengths(comparison, program);
    numbers(comparison, program);
}

/// Rules over the source's alphabet.
fn source(comparison: &mut Comparison, program: &mut Compared) {
    let wrong = "a rule with anything prints otherwise";
    let tree = node_words(&[A, B, F, C, G, F]);
    let all = "nodes 6 states 5 hits 6\n0 0 1\n1 1 1\n2 4 3\n3 2 1\n4 5 2\n5 4 6\n";
    let without_c = "nodes 6 states 11 hits 3\n0 0 1\n1 1 1\n2 4 3\n";
    for (rule, printed) in [
        (&[Anything][..], all),
        (&[Anything, Symbol(A), Product(C)], without_c),
        (
            &[Anything, Symbol(B), Symbol(F)],
            "nodes 6 states 11 hits 1\n2 4 3\n",
        ),
        (
            &[Anything, Symbol(G), Closure(C)],
            "nodes 6 states 15 hits 2\n3 2 1\n4 5 2\n",
        ),
    ] {
        let rule = operator_words(rule);
        expect(
            comparison,
            program,
            wrong,
            [&examples::alphabet(), &rule, &tree],
            printed,
        );
    }
    let holed = source_with(&[C]);
    let anything = [Anything.word()];
    expect(
        comparison,
        program,
        wrong,
        [&holed, &anything, &tree],
        "refused 26\n",
    );
    let tree = node_words(&[A, B, F]);
    let printed = "nodes 3 states 5 hits 3\n0 0 1\n1 1 1\n2 4 3\n";
    expect(comparison, program, wrong, [&holed, &anything, &tree], printed);
}

/// Tables of all lengths around the most words, of few states and of the most, with the longest chapters.
fn lengths(comparison: &mut Comparison, program: &mut Compared) {
    let wrong = "a long table prints otherwise";
    const MOST: usize = TABLE_LIMIT;
    for words in [COMPILED_LIMIT + 1, 1500, MOST - 1, MOST, MOST + 1, 3100, 4098] {
        let mut all = aimed::patterns(words, 4);
        all.extend(aimed::with_most_states(words));
        for (case, Pattern { alphabet, expression }) in all.iter().enumerate() {
            let mut random = Random::of_case("long inputs", words as u64, case as u64);
            let nodes = if case % 2 == 0 { PROGRAM_LIMIT } else { 9 };
            let tree = node_words(&generate::tree(&mut random, alphabet, nodes));
            let bytes = encode(alphabet, expression, &tree);
            let is_refused = expected(&bytes) == "refused 25\n";
            comparison.check(wrong, is_refused == (words > MOST), String::new);
            same(comparison, program, wrong, &bytes, case % 3 == 0);
        }
    }
}

/// Every number that can stand beside 25: Compile's others come first, and Run's behind.
fn numbers(comparison: &mut Comparison, program: &mut Compared) {
    let wrong = "25 and another number are printed in another order";
    let mut alphabet = examples::alphabet();
    alphabet.extend([entry_word(4); 40]);
    let rule = unions(12);
    let with_word = |word: u32| [&alphabet[..], &[word]].concat();
    let many = [&alphabet[..], &[entry_word(0); CONSTANT_LIMIT - 3]].concat();
    let most = [&alphabet[..], &[entry_word(0); CONSTANT_LIMIT - 4]].concat();
    let on_top = |word: Operator, count: usize| [&rule[..], &vec![word.word(); count]].concat();
    let long = on_top(Closure(C), EXPRESSION_LIMIT);
    let over_f = on_top(Closure(F), 1);
    let two = on_top(Anything, 1);
    let spare = [&[Anything.word() | 1], &rule[1..]].concat();
    let tree = examples::tree();
    let unknown = [&tree[..], &[node_word(200)]].concat();
    let twice = [&tree[..], &tree[..]].concat();
    let chain = |nodes: usize| postfix::chain(node_word(A), node_word(G), nodes);
    let cases: [(&[u32], &[u32], &[u32], u32); 14] = [
        (&alphabet, &rule, &tree, 25),
        (&with_word(entry_word(5)), &rule, &tree, 1),
        (&many, &rule, &tree, 2),
        (&alphabet, &long, &tree, 3),
        (&alphabet, &over_f, &tree, 4),
        (&alphabet, &spare, &tree, 4),
        (&alphabet, &two, &tree, 5),
        (&most, &unions(31), &tree, 6),
        (&most, &unions(12), &tree, 25),
        (&alphabet, &rule, &[], 25),
        (&alphabet, &rule, &chain(PROGRAM_LIMIT + 1), 25),
        (&alphabet, &rule, &unknown, 25),
        (&alphabet, &rule, &twice, 25),
        (&with_word(Entry::Hole.word()), &rule, &[node_word(47)], 25),
    ];
    for (alphabet, rule, tree, number) in cases {
        let printed = format!("refused {number}\n");
        expect(comparison, program, wrong, [alphabet, rule, tree], &printed);
    }
    // Where the input ends early, nothing else is judged.
    let bytes = encode(&alphabet, &rule, &tree);
    same(comparison, program, wrong, &bytes[..bytes.len() - 1], true);
    same(comparison, program, wrong, &bytes, false);
}
