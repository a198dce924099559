//! Random rules and chapters over alphabets with holes (document 02, U8): what is said of those without, and
//! beside it chapters with holes, rules that name another constant, and the same calls where the holes are
//! not marked.

use crate::call::Call;
use crate::cases::limits::expect;
use crate::cases::patterns::{Pattern, Patterns};
use crate::cases::random::{cases_over, length_near, marked_hits, Matched};
use crate::chance::Random;
use crate::compare::Comparison;
use crate::generate::{self, holes};
use crate::limits::EXPRESSION_LIMIT;
use crate::marks::Table;
use crate::words::{self, node_words, Operator};

pub fn compare(comparison: &mut Comparison, seed: u64, cases: u64) {
    comparison.random_cases("rules with holes", seed, cases, |comparison, case, random| {
        let own = cases_over(comparison, case, random, Patterns::over(holes::alphabet));
        unmarked(comparison, random, &own);
        other_constant(comparison, random, &own.pattern);
        if case % 2 == 0 {
            with_holes(comparison, random, &own);
        }
        if case % 100 == 0 {
            large(comparison, random, &own);
        }
    });
}

/// A hole's mark changes nothing but what is refused: the table, and the marks of a tree without holes, are
/// the same where it is not there.
fn unmarked(comparison: &mut Comparison, random: &mut Random, own: &Matched) {
    let Pattern { alphabet, expression } = &own.pattern;
    let plain = holes::without_marks(alphabet);
    let lent = random.words(own.table.len());
    let mut calls = vec![Call::compile(alphabet, expression, lent)];
    if !words::has_hole(alphabet, &own.tree) {
        let width = Table::read(alphabet, &own.table).expect("a table").width();
        let lent = random.words(own.tree.len() * width);
        calls.push(Call::run(alphabet, &own.table, &node_words(&own.tree), lent));
    }
    for marked in calls {
        let mut call = marked.clone();
        call.alphabet.clone_from(&plain);
        let wrong = "a hole's mark changes what is written";
        let expected = comparison.call(wrong, &call);
        let mut found = comparison.call(wrong, &marked);
        found.after.alphabet.clone_from(&plain);
        comparison.check(wrong, found == expected, || marked.to_string());
    }
}

/// The rule with another constant in the place of a hole that it names, or with a closure over one on top: 4.
fn other_constant(comparison: &mut Comparison, random: &mut Random, own: &Pattern) {
    let Pattern { alphabet, expression } = own;
    let leaves = words::leaves(alphabet);
    if leaves.is_empty() {
        return;
    }
    let constant = random.pick(&leaves);
    let mut rule = expression.clone();
    let named: Vec<(usize, Operator)> = (0..rule.len())
        .filter_map(|place| match Operator::read(rule[place])? {
            Operator::Product(_) => Some((place, Operator::Product(constant))),
            Operator::Closure(_) => Some((place, Operator::Closure(constant))),
            _ => None,
        })
        .collect();
    if named.is_empty() {
        rule.push(Operator::Closure(constant).word());
    } else {
        let (place, other) = random.pick(&named);
        rule[place] = other.word();
    }
    let length = random.below(60);
    let call = Call::compile(alphabet, &rule, random.words(length));
    let number = if rule.len() > EXPRESSION_LIMIT { 3 } else { 4 };
    let wrong = "a rule that names another constant than a hole is taken";
    expect(comparison, wrong, &call, number);
}

/// Trees with holes, in Run and as the used tree or the replacement of an Exchange, whose slices have any
/// length.
fn with_holes(comparison: &mut Comparison, random: &mut Random, own: &Matched) {
    let Pattern { alphabet, .. } = &own.pattern;
    let mut spoiled = own.tree.clone();
    holes::put(random, alphabet, &mut spoiled);
    marked_hits(comparison, random, alphabet, &own.table, &spoiled);
    let width = Table::read(alphabet, &own.table).expect("a table").width();
    let budget = random.between(1, 9);
    let mut other = generate::tree(random, alphabet, budget);
    if random.once_in(3) {
        holes::put(random, alphabet, &mut other);
    }
    for (used, replacement) in [(&own.tree, &spoiled), (&spoiled, &other), (&other, &own.tree)] {
        let mut tree = node_words(used);
        let most = used.len() + replacement.len();
        let length = length_near(random, most);
        tree.resize(length.max(used.len()), words::node_word(0));
        let length = length_near(random, most * width);
        let call = Call::exchange(
            alphabet,
            &own.table,
            tree,
            used.len(),
            random.words(length),
            random.below(used.len()),
            &node_words(replacement),
        );
        comparison.call("an exchange with a hole differs", &call);
    }
}

/// A large tree over the same table, as it is and with holes.
fn large(comparison: &mut Comparison, random: &mut Random, own: &Matched) {
    let Pattern { alphabet, .. } = &own.pattern;
    let width = Table::read(alphabet, &own.table).expect("a table").width();
    let budget = random.between(500, 2000);
    let mut tree = generate::tree(random, alphabet, budget);
    for _ in 0..3 {
        let lent = random.words(tree.len() * width);
        let call = Call::run(alphabet, &own.table, &node_words(&tree), lent);
        comparison.call("a large chapter with holes or without differs", &call);
        holes::put(random, alphabet, &mut tree);
    }
}
