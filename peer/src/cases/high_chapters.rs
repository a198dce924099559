//! Random chapters near the greatest height (document 02, U6): in Run, and as the used chapter and the replacement of an
//! Exchange.

use crate::automaton;
use crate::call::{Call, Operation};
use crate::cases::heights::{RESULT_TOO_HIGH, TOO_HIGH};
use crate::cases::shapes::depth;
use crate::chance::Random;
use crate::compare::Comparison;
use crate::generate;
use crate::language::Tree;
use crate::limits::{HEIGHT_LIMIT, NODE_LIMIT};
use crate::marks::Table;
use crate::model;
use crate::postfix;
use crate::words::{self, node_words};

pub fn compare(comparison: &mut Comparison, seed: u64, cases: u64) {
    let wanted = [
        (Operation::Run, None),
        (Operation::Run, Some(TOO_HIGH)),
        (Operation::Exchange, None),
        (Operation::Exchange, Some(TOO_HIGH)),
        (Operation::Exchange, Some(RESULT_TOO_HIGH)),
    ];
    comparison.check_meets(&wanted, |comparison| {
        comparison.random_cases("high chapters", seed, cases, |comparison, _, random| {
            two_chapters(comparison, random);
        });
    });
}

/// An alphabet and a table over it, a rule's or any other, with few states, since a high chapter has many elements.
pub fn small_table(random: &mut Random) -> (Vec<u32>, Vec<u32>) {
    loop {
        let alphabet = generate::alphabet_with_children(random);
        let table = if random.once_in(3) {
            generate::table(random, &alphabet)
        } else {
            let rule = generate::expression(random, &alphabet, 10);
            automaton::table(&alphabet, &rule).expect("an expression")
        };
        if width(&alphabet, &table) <= 2 {
            return (alphabet, table);
        }
    }
}

pub fn width(alphabet: &[u32], table: &[u32]) -> usize {
    Table::read(alphabet, table).expect("a table").width()
}

/// One chapter that is just not too high and one that is: each is marked, each takes the place of the other, and in each
/// some subtree gives way to one that makes it about as high as it may be.
fn two_chapters(comparison: &mut Comparison, random: &mut Random) {
    let (alphabet, table) = small_table(random);
    let heights = [HEIGHT_LIMIT - random.below(3), HEIGHT_LIMIT + 1 + random.below(3)];
    let [fitting, too_high] = heights.map(|height| generate::high_tree(random, &alphabet, height));
    for (used, other) in [(&fitting, &too_high), (&too_high, &fitting)] {
        let length = used.len() * width(&alphabet, &table) + random.below(3);
        let lent = random.words(length);
        comparison.call(
            "a chapter near the greatest height has other marks",
            &Call::run(&alphabet, &table, &node_words(used), lent),
        );
        let root = used.len() - 1;
        let mut exchanges = vec![(root, other.clone()), (root, used.clone())];
        let children = postfix::tree_children(used, &words::arities(&alphabet));
        let node = random.below(used.len());
        let most = HEIGHT_LIMIT.saturating_sub(depth(&children, node)).max(1);
        for height in [most, most + 1] {
            exchanges.push((node, generate::high_tree(random, &alphabet, height)));
        }
        for (node, replacement) in exchanges {
            let call = marked_exchange(random, &alphabet, &table, used, node, &replacement);
            comparison.call("an exchange near the greatest height differs", &call);
        }
    }
}

/// The exchange on marks as Run writes them, sometimes with a changed bit, with room for the most elements.
fn marked_exchange(
    random: &mut Random,
    alphabet: &[u32],
    table: &[u32],
    used: &Tree,
    node: usize,
    replacement: &Tree,
) -> Call {
    let read = Table::read(alphabet, table).expect("a table");
    let mut tree = node_words(used);
    let mut sets = model::state_sets(alphabet, &read, &tree);
    if random.once_in(4) {
        generate::flip(random, &mut sets);
    }
    tree.extend(random.words(NODE_LIMIT - used.len()));
    sets.extend(random.words((NODE_LIMIT - used.len()) * read.width()));
    let replacement = node_words(replacement);
    Call::exchange(alphabet, table, tree, used.len(), sets, node, &replacement)
}
