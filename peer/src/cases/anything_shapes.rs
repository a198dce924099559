//! Document 02's U7: rules of all shapes with `anything`, the longest ones and random ones. Their hits are the members
//! without holes of their languages, as substitution gives them.

use crate::call::Call;
use crate::cases::anything::longest_rules;
use crate::cases::hole_members::every_tree;
use crate::cases::in_slices::of_all_arities;
use crate::cases::patterns::{Alphabets, Pattern, Patterns};
use crate::cases::random::marked_hits;
use crate::chance::Random;
use crate::compare::Comparison;
use crate::generate::{self, holes};
use crate::kinds::HOLE;
use crate::language::membership::Membership;
use crate::language::Expression;
use crate::limits::TABLE_LIMIT;
use crate::words::{self, entry_word, operator_words, Operator};
use Operator::{Anything, Closure, Empty, Product, Symbol, Union};

pub fn compare(comparison: &mut Comparison, seed: u64, cases: u64) {
    every_shape(comparison);
    long_rules(comparison);
    comparison.random_cases("members of anything", seed, cases, |comparison, _, random| {
        for alphabets in [generate::alphabet as Alphabets, holes::alphabet] {
            let pattern = Patterns::with_anything_over(alphabets).draw(random);
            every_tree(comparison, random, &pattern, 60);
        }
    });
}

/// Rules of all shapes with `anything` over each constant, as a hole and as any other, and over the only one: all trees up
/// to a size.
fn every_shape(comparison: &mut Comparison) {
    let mut random = Random::new(11);
    let three = [0, 0, 2, 1, 0].map(entry_word);
    for (named, other) in [(0, 1), (1, 4), (4, 0)] {
        let mut marked = three;
        marked[named] |= HOLE;
        for rule in shapes([named, other, 2, 3]) {
            for alphabet in [three, marked] {
                every_tree(comparison, &mut random, &pattern(&alphabet, &rule), 70);
            }
        }
    }
    for rule in shapes([1, 1, 0, 2]) {
        let one = [2, 0, 1].map(entry_word);
        every_tree(comparison, &mut random, &pattern(&one, &rule), 70);
    }
}

fn pattern(alphabet: &[u32], rule: &[Operator]) -> Pattern {
    Pattern {
        alphabet: alphabet.to_vec(),
        expression: operator_words(rule),
    }
}

/// Rules with a constant c, another, and symbols of arity 2 and 1. Products and closures name c alone, so that it may be a
/// hole.
fn shapes([c, other, two, one]: [usize; 4]) -> Vec<Vec<Operator>> {
    let (c_alone, a, f, g) = (Symbol(c), Symbol(other), Symbol(two), Symbol(one));
    let (by, star, any) = (Product(c), Closure(c), Anything);
    let shapes: &[&[Operator]] = &[
        &[any],
        &[any, g],
        &[any, any, f],
        &[any, a, f],
        &[a, any, f],
        &[any, c_alone, f],
        &[any, a, Union],
        &[Empty, any, Union],
        &[any, a, by],
        &[any, c_alone, by],
        &[any, Empty, by],
        &[any, any, by],
        &[any, c_alone, g, by],
        &[any, a, c_alone, f, by],
        &[any, any, g, by],
        &[a, any, by],
        &[c_alone, any, by],
        &[Empty, any, by],
        &[c_alone, g, any, by],
        &[c_alone, c_alone, f, any, by],
        &[c_alone, any, f, a, by],
        &[any, star],
        &[any, g, star],
        &[c_alone, any, f, star],
        &[any, a, f, star],
        &[any, star, a, by],
        &[any, c_alone, g, by, star],
        &[c_alone, any, f, star, a, by],
        &[any, a, g, by, any, Union, star],
        &[c_alone, any, g, by, c_alone, f, star, a, by],
        &[any, c_alone, g, by, a, by],
        &[any, c_alone, g, star, by, a, by],
    ];
    shapes.iter().map(|shape| shape.to_vec()).collect()
}

/// The hits of the longest rules are those of the language.
fn long_rules(comparison: &mut Comparison) {
    let wrong = "a long rule with anything has other hits";
    let alphabet = of_all_arities();
    let arities = words::arities(&alphabet);
    let mut random = Random::new(12);
    for rule in longest_rules() {
        let rule = operator_words(&rule);
        let call = Call::compile(&alphabet, &rule, vec![0; TABLE_LIMIT]);
        let table = comparison.call(wrong, &call).table().to_vec();
        let read = Expression::read(&alphabet, &rule).expect("an expression");
        for nodes in [1, 30, 200] {
            let tree = generate::tree(&mut random, &alphabet, nodes);
            let hits = marked_hits(comparison, &mut random, &alphabet, &table, &tree);
            let in_language = Membership::new(&read, &arities).subtrees(&tree);
            comparison.check(wrong, hits == in_language, || call.to_string());
        }
    }
}
