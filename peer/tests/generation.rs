//! The generated inputs reach what they are made for: a comparison on inputs that never match, never stop early or are all
//! refused would show little.

use peer::automaton;
use peer::call::{Answer, Call, Matcher, Operation};
use peer::cases::anything_tables::TOO_LONG;
use peer::cases::heights::RESULT_TOO_HIGH;
use peer::cases::holes::{HOLE_IN_CHAPTER, HOLE_IN_REPLACEMENT};
use peer::cases::patterns::{pattern, Alphabets, Patterns};
use peer::cases::{anything_histories, anything_random, high_histories, hole_histories, hole_random};
use peer::chance::Random;
use peer::compare::Comparison;
use peer::draw;
use peer::exchange::{exchange, MarkedTree};
use peer::generate::{self, holes};
use peer::language::membership::Membership;
use peer::language::Expression;
use peer::length_word::table_in;
use peer::limits::COMPILED_LIMIT;
use peer::marks::Table;
use peer::model::Model;
use peer::postfix;
use peer::refusals::{self, Condition};
use peer::words::{self, arities, Operator};
use std::cell::Cell;
use std::rc::Rc;

#[test]
fn random_trees_match_nearly_never_or_nearly_always() {
    let (mut trees_with_an_inner_match, mut inner_nodes, mut inner_matches) = (0, 0, 0);
    for case in 0..2000 {
        let mut random = Random::of_case("test", 3, case);
        let own = pattern(&mut random);
        let arities = arities(&own.alphabet);
        let read = Expression::read(&own.alphabet, &own.expression).expect("an expression");
        let tree = draw::planted_tree(&mut random, &own.alphabet, &read, 24);
        let matches = Membership::new(&read, &arities).subtrees(&tree);
        let inner = |node: &usize| arities[tree[*node]] > 0;
        let found = (0..tree.len())
            .filter(inner)
            .filter(|node| matches[*node])
            .count();
        inner_nodes += (0..tree.len()).filter(inner).count();
        inner_matches += found;
        trees_with_an_inner_match += usize::from(found > 0);
    }
    println!("{trees_with_an_inner_match} trees, {inner_matches} of {inner_nodes} inner nodes");
    assert!(trees_with_an_inner_match > 400);
    assert!(inner_matches > inner_nodes / 20 && inner_matches < inner_nodes / 2);
}

#[test]
fn rules_with_anything_match_nearly_never_or_nearly_always() {
    let (mut with_both, mut inner_nodes, mut inner_matches) = (0, 0, 0);
    let (mut in_products, mut in_closures) = (0, 0);
    for case in 0..2000 {
        let mut random = Random::of_case("test", 8, case);
        let alphabets = [generate::alphabet as Alphabets, holes::mixed_alphabet][case as usize % 2];
        let own = Patterns::with_anything_over(alphabets).draw(&mut random);
        assert!(own.expression.contains(&Operator::Anything.word()));
        let arities = arities(&own.alphabet);
        let read = Expression::read(&own.alphabet, &own.expression).expect("an expression");
        let tree = draw::planted_tree(&mut random, &own.alphabet, &read, 24);
        let matches = Membership::new(&read, &arities).subtrees(&tree);
        let inner: Vec<usize> = (0..tree.len()).filter(|node| arities[tree[*node]] > 0).collect();
        let found = inner.iter().filter(|node| matches[**node]).count();
        inner_nodes += inner.len();
        inner_matches += found;
        with_both += usize::from(found > 0 && matches.contains(&false));
        let has = |is_such: fn(&Operator) -> bool| usize::from(read.operators.iter().any(is_such));
        in_products += has(|word| matches!(word, Operator::Product(_)));
        in_closures += has(|word| matches!(word, Operator::Closure(_)));
    }
    println!("{with_both} trees with both, {inner_matches} of {inner_nodes} inner nodes");
    println!("{in_products} rules with products, {in_closures} with closures");
    assert!(with_both > 500 && in_products > 700 && in_closures > 700);
    assert!(inner_matches > inner_nodes / 10 && inner_matches < 9 * inner_nodes / 10);
}

#[test]
fn random_exchanges_all_end_at_the_same_place() {
    let (mut at_once, mut between, mut at_the_root) = (0, 0, 0);
    for case in 0..2000 {
        let mut random = Random::of_case("test", 4, case);
        let own = pattern(&mut random);
        let arities = arities(&own.alphabet);
        let read = Expression::read(&own.alphabet, &own.expression).expect("an expression");
        let words = automaton::table(&own.alphabet, &own.expression).expect("an expression");
        let table = Table::read(&own.alphabet, &words).expect("a table");
        let symbols = draw::planted_tree(&mut random, &own.alphabet, &read, 40);
        let rows = table
            .reached_by_all(&symbols, &arities)
            .iter()
            .map(|set| table.set_words(set))
            .collect();
        let old = MarkedTree { symbols, rows };
        let node = random.below(old.symbols.len());
        let replacement = draw::planted_tree(&mut random, &own.alphabet, &read, 10);
        let new = exchange(&table, &arities, &old, node, &replacement);
        let depth = postfix::ancestors(&postfix::tree_children(&old.symbols, &arities), node).len();
        match new.recomputed - replacement.len() {
            _ if depth < 2 => {}
            0 => at_once += 1,
            above if above == depth => at_the_root += 1,
            _ => between += 1,
        }
    }
    println!("{at_once} at once, {between} between, {at_the_root} at the root");
    assert!(at_once > 50 && between > 50 && at_the_root > 50);
}

#[test]
fn lists_on_high_chapters_are_all_accepted_or_all_refused() {
    let mut comparison = Comparison::with(Box::new(Model));
    high_histories::compare(&mut comparison, 3, 10);
    let answered = &comparison.numbers[&Operation::Exchange];
    println!("{answered:?}");
    let times = |refusal: Option<Condition>| answered.get(&refusal).copied().unwrap_or(0);
    let all: u64 = answered.values().sum();
    assert!(times(None) > all / 3 && times(Some(RESULT_TOO_HIGH)) > all / 4);
    assert!([14, 15, 16]
        .iter()
        .all(|number| times(Some(Condition::first(*number))) > 0));
    assert_eq!(answered.len(), 5);
}

#[test]
fn rules_with_holes_are_refused_or_match_nearly_never() {
    let (mut all_holes, mut one_hole, mut filled, mut with_a_match) = (0, 0, 0, 0);
    for case in 0..2000 {
        let mut random = Random::of_case("test", 7, case);
        let own = Patterns::over(holes::alphabet).draw(&mut random);
        let compile = Call::compile(&own.alphabet, &own.expression, vec![0; 2048]);
        assert_eq!(refusals::faults(&compile), []);
        one_hole += usize::from(words::holes(&own.alphabet).len() == 1);
        if words::leaves(&own.alphabet).is_empty() {
            all_holes += 1;
            continue;
        }
        let read = Expression::read(&own.alphabet, &own.expression).expect("an expression");
        let tree = draw::planted_tree(&mut random, &own.alphabet, &read, 24);
        assert!(!words::has_hole(&own.alphabet, &tree));
        let arities = arities(&own.alphabet);
        let matches = Membership::new(&read, &arities).subtrees(&tree);
        with_a_match += usize::from((0..tree.len()).any(|node| arities[tree[node]] > 0 && matches[node]));
        filled += usize::from(own.expression.iter().any(|word| names_hole(&own.alphabet, *word)));
    }
    println!(
        "{all_holes} all holes, {one_hole} one, {filled} rules name a hole, {with_a_match} have a match"
    );
    assert!(all_holes > 150 && all_holes < 400 && one_hole > 800);
    assert!(filled > 1000 && with_a_match > 300);
}

fn names_hole(alphabet: &[u32], word: u32) -> bool {
    match Operator::read(word) {
        Some(Operator::Product(hole) | Operator::Closure(hole)) => words::is_hole(alphabet, hole),
        _ => false,
    }
}

/// How often an operation was refused by a condition, or accepted.
fn times(comparison: &Comparison, operation: Operation, refusal: Option<Condition>) -> u64 {
    let answered = &comparison.numbers[&operation];
    answered.get(&refusal).copied().unwrap_or(0)
}

#[test]
fn inputs_with_holes_are_all_accepted_or_all_refused() {
    let mut comparison = Comparison::with(Box::new(Model));
    hole_random::compare(&mut comparison, 3, 400);
    println!("{:?}", comparison.numbers);
    let times = |operation, refusal| times(&comparison, operation, refusal);
    assert!(times(Operation::Compile, None) > 800);
    assert!(times(Operation::Compile, Some(Condition::first(4))) > 300);
    assert!(times(Operation::Run, None) > 800);
    assert!(times(Operation::Run, Some(HOLE_IN_CHAPTER)) > 200);
    for refusal in [None, Some(HOLE_IN_CHAPTER), Some(HOLE_IN_REPLACEMENT)] {
        assert!(times(Operation::Exchange, refusal) > 100);
    }
}

#[test]
fn lists_with_holes_are_all_accepted_or_all_refused() {
    let mut comparison = Comparison::with(Box::new(Model));
    hole_histories::compare(&mut comparison, 3, 100);
    println!("{:?}", comparison.numbers);
    let times = |refusal| times(&comparison, Operation::Exchange, refusal);
    assert!(times(None) > 300);
    assert!(times(Some(HOLE_IN_CHAPTER)) > 100 && times(Some(HOLE_IN_REPLACEMENT)) > 100);
}

#[test]
fn rules_with_anything_are_all_accepted_or_all_refused() {
    let mut comparison = Comparison::with(Box::new(Model));
    anything_random::compare(&mut comparison, 3, 400);
    println!("{:?}", comparison.numbers);
    let times = |refusal| times(&comparison, Operation::Compile, refusal);
    assert!(times(None) > 600 && times(Some(TOO_LONG)) > 80);
    assert!([6, 7]
        .iter()
        .all(|number| times(Some(Condition::first(*number))) > 10));
}

#[test]
fn long_tables_are_not_in_lists() {
    /// Counts the exchanges with a table that no rule without anything has.
    struct Counting(Rc<Cell<usize>>);
    impl Matcher for Counting {
        fn answer(&mut self, call: &Call) -> Answer {
            let words = table_in(&call.table).map_or(0, <[u32]>::len);
            let answer = Model.answer(call);
            let is_long = call.operation == Operation::Exchange && words > COMPILED_LIMIT;
            self.0
                .set(self.0.get() + usize::from(is_long && answer.number == 0));
            answer
        }
    }
    let count = Rc::new(Cell::new(0));
    let mut comparison = Comparison::with(Box::new(Counting(count.clone())));
    anything_histories::compare(&mut comparison, 3, 40);
    println!("{} exchanges with long tables", count.get());
    assert!(comparison.differences() == 0 && count.get() > 20);
}
