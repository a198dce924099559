//! Random valid inputs: a rule is compiled, a tree marked and listed, and the hits are compared with the language of
//! the rule as substitution gives it.

use crate::automaton;
use crate::call::Call;
use crate::cases::holes::HOLE_IN_CHAPTER;
use crate::cases::patterns::{Pattern, Patterns};
use crate::chance::Random;
use crate::compare::Comparison;
use crate::draw;
use crate::generate;
use crate::language::literal;
use crate::language::membership::Membership;
use crate::language::{Expression, Tree};
use crate::marks::Table;
use crate::model;
use crate::words::{self, Hex};

/// A length at, below or above the one that is needed.
pub fn length_near(random: &mut Random, needed: usize) -> usize {
    match random.below(8) {
        0 => needed - 1,
        1..=4 => needed,
        _ => needed + random.between(1, 9),
    }
}

pub fn compare(comparison: &mut Comparison, seed: u64, cases: u64) {
    comparison.random_cases("rules and chapters", seed, cases, |comparison, case, random| {
        cases_over(comparison, case, random, Patterns::over(generate::alphabet));
    });
}

/// A pattern with the slice of its table, and a tree that was compared with it.
pub struct Matched {
    pub pattern: Pattern,
    pub table: Vec<u32>,
    pub tree: Tree,
}

/// A pattern that is drawn so, and a tree; sometimes also another table, or all small trees.
pub fn cases_over(
    comparison: &mut Comparison,
    case: u64,
    random: &mut Random,
    patterns: Patterns,
) -> Matched {
    let matched = pattern_case(comparison, random, patterns);
    if case % 4 == 0 {
        table_case(comparison, random, patterns);
    }
    if case % 16 == 0 {
        literal_case(comparison, random, patterns);
    }
    matched
}

/// A rule and a tree: table, marks, list, and the language.
fn pattern_case(comparison: &mut Comparison, random: &mut Random, patterns: Patterns) -> Matched {
    let Pattern { alphabet, expression } = patterns.draw(random);
    let mut table = automaton::table(&alphabet, &expression).expect("an expression");
    let length = length_near(random, table.len());
    let lent = random.words(length);
    let compiled = comparison.call(
        "a rule has another table",
        &Call::compile(&alphabet, &expression, lent),
    );
    // The slice that Compile was lent, as it left it, is lent on.
    if compiled.number == 0 {
        table = compiled.after.table;
    }

    let read = Expression::read(&alphabet, &expression).expect("an expression");
    let budget = match random.below(100) {
        0 => random.between(1, 600),
        1..=10 => random.between(1, 100),
        _ => random.between(1, 24),
    };
    let tree = draw::planted_tree(random, &alphabet, &read, budget);
    let hits = marked_hits(comparison, random, &alphabet, &table, &tree);
    if !words::has_hole(&alphabet, &tree) {
        let arities = words::arities(&alphabet);
        let in_language = Membership::new(&read, &arities).subtrees(&tree);
        comparison.check(
            "the hits are not the subtrees in the language",
            hits == in_language,
            || input(&alphabet, &expression, &tree),
        );
    }

    if let Some(member) = draw::hole_free_member(random, &alphabet, &read, 40) {
        let hits = marked_hits(comparison, random, &alphabet, &table, &member);
        comparison.check(
            "a member of the language is no hit",
            hits.last() == Some(&true),
            || input(&alphabet, &expression, &member),
        );
    }
    let pattern = Pattern { alphabet, expression };
    Matched { pattern, table, tree }
}

/// A table that need not come from a rule.
fn table_case(comparison: &mut Comparison, random: &mut Random, patterns: Patterns) {
    let alphabet = (patterns.alphabet)(random);
    let mut table = generate::table(random, &alphabet);
    table.extend(generate::behind(random));
    let budget = random.between(1, 30);
    let tree = generate::tree(random, &alphabet, budget);
    marked_hits(comparison, random, &alphabet, &table, &tree);
}

/// Runs and lists, with slices of many lengths that hold anything before; answers which nodes are hits. Run
/// refuses by 26 exactly where the tree has a hole; List does not see the tree.
pub fn marked_hits(
    comparison: &mut Comparison,
    random: &mut Random,
    alphabet: &[u32],
    table: &[u32],
    tree: &Tree,
) -> Vec<bool> {
    let read = Table::read(alphabet, table).expect("a table");
    let tree_words = words::node_words(tree);
    let needed = tree.len() * read.width();
    let length = length_near(random, needed);
    let lent = random.words(length);
    let run = Call::run(alphabet, table, &tree_words, lent);
    let is_refused = comparison.call("a tree has other marks", &run).number == HOLE_IN_CHAPTER.number;
    let wrong = "a tree is taken with a hole, or refused for one that it has not";
    comparison.check(wrong, is_refused == words::has_hole(alphabet, tree), || {
        run.to_string()
    });

    let sets = model::state_sets(alphabet, &read, &tree_words);
    let length = length_near(random, tree.len());
    let lent = random.words(length);
    comparison.call(
        "a tree has another list",
        &Call::list(alphabet, table, tree.len(), &sets, lent),
    );
    sets.chunks(read.width()).map(|own| read.is_match(own)).collect()
}

/// All trees up to a size, those with holes too: members by the literal reading, members by the decision, and
/// hits.
fn literal_case(comparison: &mut Comparison, random: &mut Random, patterns: Patterns) {
    let Pattern { alphabet, expression } = patterns.draw(random);
    let arities = words::arities(&alphabet);
    let read = Expression::read(&alphabet, &expression).expect("an expression");
    let limit = literal::size_with_at_most(&arities, 250);
    if limit == 0 {
        return;
    }
    let members = literal::members(&read, &arities, limit);
    let membership = Membership::new(&read, &arities);
    let words = automaton::table(&alphabet, &expression).expect("an expression");
    let table = Table::read(&alphabet, &words).expect("a table");
    for tree in literal::trees(&arities, limit) {
        let is_member = members.contains(&tree);
        let decided = membership.subtrees(&tree).last() == Some(&true);
        let root = table.reached_by_all(&tree, &arities).pop().expect("a root");
        let agree = is_member == decided && is_member == root[table.accepting];
        comparison.check("the literal members are not the hits", agree, || {
            input(&alphabet, &expression, &tree)
        });
    }
}

fn input(alphabet: &[u32], expression: &[u32], tree: &Tree) -> String {
    format!(
        "    alphabet {}\n    rule {}\n    chapter {}",
        Hex(alphabet),
        Hex(expression),
        Hex(&words::node_words(tree))
    )
}
