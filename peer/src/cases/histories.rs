//! Lists of Exchange calls on one chapter, accepted and refused in any order. With true marks the used words must be
//! at the end what a fresh Run writes for the plain chapter (demand 3); with false marks the rule on stored marks and
//! the exact count decide, which the model states.

use crate::automaton;
use crate::call::{Answer, Call};
use crate::cases::patterns::{Pattern, Patterns};
use crate::cases::totals::TOTALS_OUTSIDE;
use crate::chance::Random;
use crate::compare::Comparison;
use crate::draw;
use crate::exchange::splice;
use crate::generate::{self, holes};
use crate::language::{Expression, Tree};
use crate::marks::Table;
use crate::postfix;
use crate::refusals;
use crate::totals;
use crate::words::{self, Hex};

/// The Exchange whose slices and count stay through a list of calls, and the expression of its table, if it has one.
pub struct History {
    pub call: Call,
    pub expression: Option<Expression>,
}

pub fn compare(comparison: &mut Comparison, seed: u64, cases: u64) {
    comparison.random_cases("lists of exchanges", seed, cases, |comparison, case, random| {
        let patterns = Patterns::over(generate::alphabet);
        true_marks(comparison, random, patterns, 40, 12);
        false_marks(comparison, random, patterns);
        if case % 200 == 0 {
            true_marks(comparison, random, patterns, 500, 400);
        }
    });
}

/// The table of a pattern that is drawn so, or any other over such an alphabet, a tree that Run marked, and
/// slices with room to grow.
pub fn start(comparison: &mut Comparison, random: &mut Random, budget: usize, patterns: Patterns) -> History {
    let (alphabet, expression, mut table) = if random.once_in(4) {
        let alphabet = (patterns.alphabet)(random);
        let table = generate::table(random, &alphabet);
        (alphabet, None, table)
    } else {
        let Pattern { alphabet, expression } = patterns.draw(random);
        let table = automaton::table(&alphabet, &expression).expect("an expression");
        let read = Expression::read(&alphabet, &expression);
        (alphabet, read, table)
    };
    table.extend(generate::behind(random));
    let width = Table::read(&alphabet, &table).expect("a table").width();
    let nodes = random.between(1, budget);
    let mut tree = words::node_words(&draw_tree(random, &alphabet, &expression, nodes));
    let count = tree.len();
    let most = if random.once_in(2) { 3 } else { budget };
    let room = random.between(0, most);
    tree.extend(random.words(room));
    let length = (count + random.between(0, room)) * width;
    let lent = random.words(length);
    let marked = comparison.call(
        "the tree before a list of exchanges has other marks",
        &Call::run(&alphabet, &table, &tree[..count], lent),
    );
    History {
        call: after_run(&marked, tree),
        expression,
    }
}

/// An Exchange on the chapter that a Run was given, which this slice begins with, with the marks and the record that it left.
/// Where it refused, the record is right for the marks as they stand.
pub fn after_run(marked: &Answer, tree: Vec<u32>) -> Call {
    let Call {
        alphabet,
        table,
        tree: chapter,
        sets,
        totals,
        ..
    } = &marked.after;
    let mut call = Call::exchange(alphabet, table, tree, chapter.len(), sets.clone(), 0, &[]);
    if marked.number == 0 {
        call.totals = *totals;
    }
    call
}

fn draw_tree(random: &mut Random, alphabet: &[u32], expression: &Option<Expression>, budget: usize) -> Tree {
    match expression {
        Some(expression) => draw::planted_tree(random, alphabet, expression, budget),
        None => generate::tree(random, alphabet, budget),
    }
}

/// Draws an element and a replacement: mostly good, sometimes one or the other at fault.
pub fn draw(random: &mut Random, call: &mut Call, expression: &Option<Expression>) {
    let count = call.count;
    call.node = match random.below(16) {
        0 => count,
        1 => count - 1,
        2 => random.pick(&[usize::MAX, 1 << 32, count + 1]),
        _ => random.below(count),
    };
    let size = if random.once_in(4) {
        1
    } else {
        random.between(1, 10)
    };
    let mut tree = draw_tree(random, &call.alphabet, expression, size);
    if !words::holes(&call.alphabet).is_empty() && random.once_in(5) {
        holes::put(random, &call.alphabet, &mut tree);
    }
    call.replacement = words::node_words(&tree);
    match random.below(20) {
        0 => call.replacement.clear(),
        1 => generate::flip(random, &mut call.replacement),
        2 => call.replacement.push(words::node_word(0)),
        _ => {}
    }
}

/// Compares the call, and keeps what it leaves for the next one. Answers its number.
pub fn step(comparison: &mut Comparison, wrong: &str, call: &mut Call) -> u32 {
    let answer = comparison.call(wrong, call);
    *call = answer.after;
    if answer.number == 0 {
        call.count = answer.values[0] as usize;
    }
    answer.number
}

/// A list of up to so many calls on a tree of at most `budget` nodes.
pub fn true_marks(
    comparison: &mut Comparison,
    random: &mut Random,
    patterns: Patterns,
    budget: usize,
    calls: usize,
) {
    let History { call, expression } = start(comparison, random, budget, patterns);
    let calls = random.between(0, calls);
    demand_3(comparison, random, call, calls, |_, random, call, _| {
        draw(random, call, &expression);
    });
}

/// Demand 3: after a list of so many calls, the used words are the plain chapter's and a fresh Run's, and so is the record,
/// for which none of the calls is refused. Each call is the one before, as it was left, with the element and the replacement
/// that are drawn for its place in the list.
pub fn demand_3(
    comparison: &mut Comparison,
    random: &mut Random,
    mut call: Call,
    calls: usize,
    mut draw: impl FnMut(&mut Comparison, &mut Random, &mut Call, usize),
) {
    let mut plain = call.tree[..call.count].to_vec();
    for place in 0..calls {
        draw(comparison, random, &mut call, place);
        plain = plain_exchange(&call, &plain);
        let number = step(comparison, "an exchange on true marks differs", &mut call);
        comparison.check(
            "a right record is wrong afterwards, or refused",
            number != TOTALS_OUTSIDE.number && call.totals == totals::right(&call),
            || call.to_string(),
        );
    }
    let Call {
        alphabet,
        table,
        tree,
        count,
        sets,
        totals,
        ..
    } = &call;
    comparison.check(
        "the used elements are not the plain chapter",
        tree[..*count] == plain,
        || format!("    chapter {}\n    plain {}", Hex(tree), Hex(&plain)),
    );
    let input = || format!("    chapter {}\n    table {}", Hex(&plain), Hex(table));
    let fresh = comparison.call(
        "a fresh Run on the plain chapter differs",
        &Call::run(alphabet, table, &plain, random.words(sets.len())),
    );
    let used = count * Table::read(alphabet, table).expect("a table").width();
    let equal = fresh.number == 0 && fresh.after.sets[..used] == sets[..used];
    comparison.check("the used marks are not a fresh Run's", equal, input);
    let equal = fresh.after.totals == *totals;
    comparison.check("the record is not a fresh Run's", equal, input);
    let lent = random.words(*count);
    let list = |sets: &[u32]| Call::list(alphabet, table, *count, sets, lent.clone());
    let kept = comparison.call("a list after exchanges differs", &list(sets));
    let anew = comparison.call("a list after a fresh Run differs", &list(&fresh.after.sets));
    let equal =
        kept.number == anew.number && kept.values == anew.values && kept.after.list == anew.after.list;
    comparison.check("the list after exchanges is not a fresh Run's", equal, input);
}

/// The plain chapter after a call. It knows the lengths of the two slices and no answer: a call that is refused with it
/// as the used elements and a right record leaves it, and in any other the subtree's words give way to the replacement's.
fn plain_exchange(call: &Call, plain: &[u32]) -> Vec<u32> {
    let mut tree = plain.to_vec();
    tree.resize(call.tree.len(), 0);
    let sets = vec![0; call.sets.len()];
    let Call {
        alphabet,
        table,
        node,
        replacement,
        ..
    } = call;
    let alone = Call::exchange(alphabet, table, tree, plain.len(), sets, *node, replacement);
    if !refusals::faults(&alone).is_empty() {
        return plain.to_vec();
    }
    let children = postfix::tree_children(&words::symbols(plain), &words::arities(alphabet));
    splice(plain, *node, postfix::sizes(&children)[*node], replacement)
}

/// Stored marks count as they stand: some or all of them are changed before and between the calls, where the record is left
/// as it was or is made right again.
pub fn false_marks(comparison: &mut Comparison, random: &mut Random, patterns: Patterns) {
    let History { mut call, expression } = start(comparison, random, 40, patterns);
    if random.once_in(3) {
        call.sets = random.words(call.sets.len());
    }
    for _ in 0..random.between(1, 8) {
        for _ in 0..random.below(6) {
            generate::flip(random, &mut call.sets);
        }
        if random.once_in(2) {
            call.totals = totals::right(&call);
        }
        draw(random, &mut call, &expression);
        step(comparison, "an exchange on false marks differs", &mut call);
    }
    let Call {
        alphabet,
        table,
        count,
        sets,
        ..
    } = &call;
    comparison.call(
        "a list of false marks differs",
        &Call::list(alphabet, table, *count, sets, random.words(*count)),
    );
}
