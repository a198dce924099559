//! Document 02's U7: the rule word `anything`, kind 14, without fields and without parts. Alone over many alphabets it
//! hits every element; every bit of it, what stands around it in rules of all lengths, and the word where it is none.

use crate::call::{Call, Operation};
use crate::cases::damage::accepted_calls;
use crate::cases::examples::{self, A, B, C, D, F, G};
use crate::cases::holes::{choices, source_with};
use crate::cases::in_slices::of_all_arities;
use crate::cases::limits::expect;
use crate::chance::Random;
use crate::compare::Comparison;
use crate::generate::{self, holes};
use crate::kinds::{self, ANYTHING, CLOSURE, FIELD_BITS};
use crate::limits::{ARITY_LIMIT, CONSTANT_LIMIT, EXPRESSION_LIMIT, SYMBOL_LIMIT, TABLE_LIMIT};
use crate::marks::Table;
use crate::words::{self, entry_word, node_words, operator_words, Operator};
use Operator::{Anything, Closure, Empty, Product, Symbol, Union};

pub fn compare(comparison: &mut Comparison) {
    alone(comparison);
    every_bit(comparison);
    parts(comparison);
    long_rules(comparison);
    elsewhere(comparison);
}

/// Alphabets of all sorts: the smallest, constants alone, one constant among the most symbols, every choice of holes, and
/// random ones.
fn alphabets() -> Vec<Vec<u32>> {
    let mut all = vec![vec![entry_word(0)], of_all_arities()];
    all.extend([2, CONSTANT_LIMIT].map(|constants| vec![entry_word(0); constants]));
    for place in [0, 31, SYMBOL_LIMIT - 1] {
        let mut wide = vec![entry_word(ARITY_LIMIT); SYMBOL_LIMIT];
        wide[place] = entry_word(0);
        all.push(wide);
    }
    let mixed = (0..SYMBOL_LIMIT).map(|symbol| entry_word(symbol % (ARITY_LIMIT + 1)));
    all.push(mixed.collect());
    all.extend(choices().iter().map(|holes| source_with(holes)));
    for case in 0..40 {
        let mut random = Random::of_case("alphabets", 1, case);
        all.push(generate::alphabet(&mut random));
        all.push(holes::alphabet(&mut random));
    }
    all
}

/// The table has a state and two words for each constant, and a transition for each other symbol; every element is a hit.
fn alone(comparison: &mut Comparison) {
    let wrong = "anything alone has another table";
    for (case, alphabet) in alphabets().iter().enumerate() {
        let arities = words::arities(alphabet);
        let constants = words::constants(alphabet).len();
        let transitions = arities.iter().filter(|arity| **arity > 0).map(|arity| 1 + arity);
        let count = 2 + 2 * constants + transitions.sum::<usize>();
        let rule = [Anything.word()];
        for (length, number) in [(0, 7), (count - 1, 7), (count, 0), (count + 3, 0)] {
            let call = Call::compile(alphabet, &rule, vec![0x3c3c_3c3c; length]);
            expect(comparison, wrong, &call, number);
        }
        let compiled = comparison.call(wrong, &Call::compile(alphabet, &rule, vec![0; count]));
        let table = compiled.table();
        let read = Table::read(alphabet, table).expect("a table");
        let is_right = table.len() == count && read.states == 1 + constants && read.accepting == 0;
        comparison.check(wrong, is_right, || words::Hex(table).to_string());
        if words::leaves(alphabet).is_empty() {
            continue;
        }
        let mut random = Random::of_case("anything alone", 1, case as u64);
        for nodes in [1, 2, 9, 60] {
            let tree = node_words(&generate::tree(&mut random, alphabet, nodes));
            every_element(comparison, alphabet, table, &tree);
        }
    }
}

fn every_element(comparison: &mut Comparison, alphabet: &[u32], table: &[u32], tree: &[u32]) {
    let wrong = "anything does not hit every element";
    let marked = comparison.call(wrong, &Call::run(alphabet, table, tree, vec![9; tree.len()]));
    let list = Call::list(
        alphabet,
        table,
        tree.len(),
        &marked.after.sets,
        vec![9; tree.len()],
    );
    let listed = comparison.call(wrong, &list);
    let all: Vec<u32> = (0..tree.len() as u32).collect();
    comparison.check(wrong, listed.hits() == all, || list.to_string());
}

fn compile(alphabet: &[u32], rule: &[Operator]) -> Call {
    Call::compile(alphabet, &operator_words(rule), vec![7; TABLE_LIMIT])
}

/// Every bit of the word changed, at every place of rules: but for the highest it is then no rule word, and with that one
/// changed a closure over the first symbol. Every symbol number in the word, and spare bits at random, are refused too.
fn every_bit(comparison: &mut Comparison) {
    let wrong = "a changed bit of anything is taken otherwise";
    let own = examples::alphabet();
    for rule in [
        &[Anything][..],
        &[Anything, Closure(C)],
        &[Symbol(A), Anything, Symbol(F)],
        &[Anything, Symbol(B), Symbol(F)],
        &[Anything, Anything, Union],
        &[Anything, Symbol(A), Product(C)],
        &[Symbol(C), Anything, Product(C)],
    ] {
        for place in (0..rule.len()).filter(|place| rule[*place] == Anything) {
            let accepted = compile(&own, rule);
            expect(comparison, wrong, &accepted, 0);
            for bit in 0..u32::BITS {
                let mut call = accepted.clone();
                call.expression[place] ^= 1 << bit;
                let is_closure = kinds::kind(call.expression[place]) == CLOSURE;
                // A closure in its place lacks its part, or takes one that another word then lacks.
                let number = if is_closure { 5 } else { 4 };
                expect(comparison, wrong, &call, number);
            }
        }
    }
    let mut random = Random::new(3);
    let fields = (1..256).chain((0..100).map(|_| 1 + random.below((1 << FIELD_BITS) - 1) as u32));
    for field in fields.collect::<Vec<_>>() {
        let mut call = compile(&own, &[Symbol(A), Anything, Symbol(F)]);
        call.expression[1] = kinds::word(ANYTHING) | field;
        expect(comparison, wrong, &call, 4);
    }
}

/// `anything` takes no parts and is a rule by itself: too few and too many words around it.
fn parts(comparison: &mut Comparison) {
    let wrong = "the parts of anything are counted otherwise";
    let own = examples::alphabet();
    for rule in [
        &[Anything, Anything][..],
        &[Symbol(A), Anything],
        &[Anything, Symbol(A)],
        &[Empty, Anything],
        &[Anything, Union],
        &[Union, Anything, Anything],
        &[Anything, Product(C)],
        &[Anything, Symbol(F)],
        &[Symbol(G), Anything],
        &[Closure(C), Anything],
        &[Anything, Anything, Anything, Union],
        &[Anything, Anything, Symbol(F), Anything],
        &[Anything, Closure(C), Anything],
        &[Anything, Anything, Anything, Anything, Symbol(F)],
        &[Anything; EXPRESSION_LIMIT],
    ] {
        expect(comparison, wrong, &compile(&own, rule), 5);
        let mut spoiled = compile(&own, rule);
        let place = rule.iter().position(|word| *word == Anything).expect("anything");
        spoiled.expression[place] |= 1;
        expect(comparison, wrong, &spoiled, 4);
    }
    for rule in [
        &[Anything][..],
        &[Anything, Symbol(G)],
        &[Anything, Anything, Symbol(F)],
        &[Anything, Closure(D)],
        &[Anything, Anything, Union],
        &[Anything, Empty, Product(A)],
        &[Empty, Anything, Product(A)],
    ] {
        expect(comparison, wrong, &compile(&own, rule), 0);
    }
}

/// Rules of the most words over the alphabet in which a symbol's number is its arity, or of one less: closures and
/// symbols one above the other, and unions, products and symbols to the left and to the right.
pub fn longest_rules() -> Vec<Vec<Operator>> {
    const PAIRS: usize = EXPRESSION_LIMIT / 2 - 1;
    let to_the_left = |word: Operator| [vec![Anything], [Anything, word].repeat(PAIRS)].concat();
    let to_the_right = |word: Operator| [vec![Anything; PAIRS + 1], vec![word; PAIRS]].concat();
    let mut rules = vec![
        [vec![Anything], vec![Closure(0); EXPRESSION_LIMIT - 1]].concat(),
        [vec![Anything], vec![Symbol(1); EXPRESSION_LIMIT - 1]].concat(),
        [vec![Anything], [Symbol(0), Product(0)].repeat(PAIRS)].concat(),
    ];
    for word in [Union, Product(0), Symbol(2)] {
        rules.extend([to_the_left(word), to_the_right(word)]);
    }
    rules
}

/// The longest rules, with closures on top up to the most words, and one word more.
fn long_rules(comparison: &mut Comparison) {
    let wrong = "a long rule with anything is judged otherwise";
    let own = of_all_arities();
    for rule in longest_rules() {
        expect(comparison, wrong, &compile(&own, &rule), 0);
        let mut longer = rule.clone();
        longer.resize(EXPRESSION_LIMIT, Closure(0));
        expect(comparison, wrong, &compile(&own, &longer), 0);
        longer.push(Closure(0));
        expect(comparison, wrong, &compile(&own, &longer), 3);
    }
}

/// A word of kind 14 is none of an alphabet, of a table, of a chapter or of a replacement.
fn elsewhere(comparison: &mut Comparison) {
    let wrong = "a word of kind 14 is taken where it is none";
    let calls = accepted_calls(
        &examples::alphabet(),
        &examples::expression(),
        &examples::tree(),
        0,
    );
    for call in calls {
        let has_table = call.operation != Operation::Compile;
        for (slice, number) in [(0, 1), (2, 8), (3, 10), (5, 15)] {
            let length = call.slices()[slice].1.len();
            for place in (0..length).filter(|_| slice != 2 || has_table) {
                let mut changed = call.clone();
                changed.slices_mut()[slice][place] = Anything.word();
                expect(comparison, wrong, &changed, number);
            }
        }
    }
}
