//! Document 02's U8: once an alphabet has a hole, only holes may be named in a product or closure, else 4; as
//! symbols holes stand in a rule like other constants. The mark changes no word of a table, and the hits are
//! the members without holes.

use crate::call::Call;
use crate::cases::examples::{A, B, C, D, F, G};
use crate::cases::heights::expect_faults;
use crate::cases::hole_places::NUMBERS;
use crate::cases::holed::Holed;
use crate::cases::holes::{choices, source_with};
use crate::cases::limits::{self, expect};
use crate::cases::patterns::{pattern, Pattern};
use crate::chance::Random;
use crate::compare::Comparison;
use crate::generate::holes::without_marks;
use crate::kinds::HOLE;
use crate::limits::{CONSTANT_LIMIT, EXPRESSION_LIMIT, SYMBOL_LIMIT, TABLE_LIMIT};
use crate::refusals::Condition;
use crate::words::{self, operator_words, Entry, Operator};
use Operator::{Closure, Empty, Product, Symbol, Union};

pub fn compare(comparison: &mut Comparison, seed: u64, cases: u64) {
    each_constant(comparison);
    every_symbol(comparison);
    every_place(comparison);
    several_faults(comparison);
    lone_symbols(comparison);
    comparison.random_cases("marked rules", seed, cases, |comparison, _, random| {
        same_table(comparison, random);
    });
}

/// Compile into a slice that is long enough for any rule.
fn compile(alphabet: &[u32], rule: &[Operator]) -> Call {
    Call::compile(alphabet, &operator_words(rule), vec![7; TABLE_LIMIT])
}

/// A product and a closure over each symbol, known and unknown, for each choice of holes.
fn each_constant(comparison: &mut Comparison) {
    let wrong = "what a product or closure names is judged otherwise";
    for holes in choices() {
        let alphabet = source_with(&holes);
        for named in (0..8).chain([63, 64, 128, 200, 255]) {
            let is_named = match holes.is_empty() {
                true => [A, B, C, D].contains(&named),
                false => holes.contains(&named),
            };
            let number = if is_named { 0 } else { 4 };
            for rule in [
                &[Symbol(A), Closure(named)][..],
                &[Symbol(C), Symbol(A), Product(named)],
                &[Empty, Closure(named), Symbol(G)],
                &[Symbol(C), Symbol(D), Symbol(B), Product(named), Symbol(F)],
            ] {
                expect(comparison, wrong, &compile(&alphabet, rule), number);
            }
        }
    }
}

/// A product and a closure over every symbol number there is, in alphabets with a hole of each sort of
/// number, and in one of the most symbols, of which every fourth is a constant and every eighth a hole.
fn every_symbol(comparison: &mut Comparison) {
    let wrong = "some symbol number in a product or closure is judged otherwise";
    let entry = |symbol: usize| match symbol % 8 {
        3 => Entry::Hole,
        7 => Entry::Symbol(0),
        rank => Entry::Symbol(1 + rank % 4),
    };
    let longest = (0..SYMBOL_LIMIT).map(|symbol| entry(symbol).word()).collect();
    let mut alphabets: Vec<Vec<u32>> = vec![longest];
    alphabets.extend(NUMBERS.map(|hole| Holed::numbered(hole).alphabet));
    for alphabet in alphabets {
        let leaf = Symbol(words::constants(&alphabet)[0]);
        for named in 0..256 {
            let is_named = alphabet.get(named) == Some(&Entry::Hole.word());
            let number = if is_named { 0 } else { 4 };
            for rule in [&[leaf, Closure(named)][..], &[leaf, leaf, Product(named)]] {
                expect(comparison, wrong, &compile(&alphabet, rule), number);
            }
        }
    }
}

/// The longest rules, with one constant that is no hole at every place where a constant is named: closures
/// one above the other, products to the left and to the right.
fn every_place(comparison: &mut Comparison) {
    let wrong = "some place of a rule may name any constant";
    let alphabet = source_with(&[C, D]);
    const PRODUCTS: usize = EXPRESSION_LIMIT / 2 - 1;
    let closures = [vec![Symbol(C)], vec![Closure(C); EXPRESSION_LIMIT - 1]].concat();
    let left = [vec![Symbol(C)], [Symbol(A), Product(C)].repeat(PRODUCTS)].concat();
    let right = [vec![Symbol(D); PRODUCTS + 1], vec![Product(D); PRODUCTS]].concat();
    for rule in [closures, left, right] {
        expect(comparison, wrong, &compile(&alphabet, &rule), 0);
        for place in 0..rule.len() {
            let other = |constant: usize| match rule[place] {
                Product(_) => Some(Product(constant)),
                Closure(_) => Some(Closure(constant)),
                _ => None,
            };
            for (constant, number) in [(C, 0), (D, 0), (A, 4), (B, 4), (G, 4)] {
                let mut changed = rule.clone();
                if let Some(word) = other(constant) {
                    changed[place] = word;
                    expect(comparison, wrong, &compile(&alphabet, &changed), number);
                }
            }
        }
    }
}

/// A constant that is no hole beside other faults: 3 comes before it, and 5, 6 and 7 behind.
fn several_faults(comparison: &mut Comparison) {
    let wrong = "a constant that is no hole is judged in another order";
    let [three, four, five, six, seven] = [3, 4, 5, 6, 7].map(Condition::first);
    let alphabet = source_with(&[C]);
    // The wrong word behind and before the one that lacks parts, and in rules of which not one remains.
    for rule in [
        &[Closure(C), Symbol(A), Closure(A), Union][..],
        &[Symbol(A), Closure(A), Symbol(F)],
        &[Closure(A)],
        &[Product(D), Symbol(C)],
        &[Symbol(C), Symbol(A), Closure(B)],
        &[Symbol(C), Symbol(A), Product(B), Symbol(A)],
    ] {
        expect_faults(comparison, wrong, &compile(&alphabet, rule), &[four, five]);
        let alike: Vec<Operator> = rule.iter().map(|word| over_hole(*word)).collect();
        expect_faults(comparison, wrong, &compile(&alphabet, &alike), &[five]);
    }
    let long = [vec![Symbol(C)], vec![Closure(A); EXPRESSION_LIMIT]].concat();
    expect_faults(comparison, wrong, &compile(&alphabet, &long), &[three, four]);
    let mut short = compile(&alphabet, &[Symbol(C), Closure(A)]);
    short.table.truncate(3);
    expect_faults(comparison, wrong, &short, &[four, seven]);
    let mut sixteen = limits::alphabet(CONSTANT_LIMIT, 1);
    for (hole, faults) in [(1, vec![four, six]), (0, vec![six])] {
        sixteen[hole] |= HOLE;
        let call = Call::compile(&sixteen, &limits::closures(61), vec![7; TABLE_LIMIT]);
        expect_faults(comparison, wrong, &call, &faults);
    }
}

/// The word with C in the place of what it names.
fn over_hole(word: Operator) -> Operator {
    match word {
        Product(_) => Product(C),
        Closure(_) => Closure(C),
        _ => word,
    }
}

/// Each constant alone as a rule, for each choice of holes: three words, the same for a hole as for any
/// other.
fn lone_symbols(comparison: &mut Comparison) {
    let wrong = "a hole as a rule's symbol is taken otherwise";
    for holes in choices() {
        for symbol in [A, B, C, D] {
            let call = compile(&source_with(&holes), &[Symbol(symbol)]);
            let answer = comparison.call(wrong, &call);
            let on_symbol = 0x9000_0000 + ((symbol as u32) << 10);
            let is_right = answer.number == 0 && answer.table() == [0x8000_0400, 0xc000_0003, on_symbol];
            comparison.check(wrong, is_right, || call.to_string());
        }
    }
}

/// A rule over an alphabet without holes, and over the same with the constants that it names as holes, and
/// sometimes others: the tables are equal word by word.
fn same_table(comparison: &mut Comparison, random: &mut Random) {
    let Pattern { alphabet, expression } = pattern(random);
    let mut marked = alphabet.clone();
    for word in &expression {
        if let Some(Product(constant) | Closure(constant)) = Operator::read(*word) {
            marked[constant] |= HOLE;
        }
    }
    for constant in words::constants(&alphabet) {
        if random.once_in(4) {
            marked[constant] |= HOLE;
        }
    }
    let lent = random.words(TABLE_LIMIT);
    let wrong = "a hole's mark changes a table";
    let plain = comparison.call(wrong, &Call::compile(&alphabet, &expression, lent.clone()));
    let call = Call::compile(&marked, &expression, lent);
    let answer = comparison.call(wrong, &call);
    let is_same = answer.number == 0
        && plain.number == 0
        && answer.values == plain.values
        && answer.after.table == plain.after.table
        && without_marks(&marked) == alphabet;
    comparison.check(wrong, is_same, || call.to_string());
}
