//! Lists of Exchange calls on a chapter near the greatest height (document 02, U6: demand 3 with 24 among the refusals).

use crate::call::{Call, Operation};
use crate::cases::heights::RESULT_TOO_HIGH;
use crate::cases::high_chapters::{small_table, width};
use crate::cases::histories::{after_run, demand_3};
use crate::cases::shapes::{deepest, depth};
use crate::chance::Random;
use crate::compare::Comparison;
use crate::generate;
use crate::limits::{HEIGHT_LIMIT, NODE_LIMIT};
use crate::postfix;
use crate::words::{self, node_words};

pub fn compare(comparison: &mut Comparison, seed: u64, cases: u64) {
    let wanted = [None, Some(RESULT_TOO_HIGH)].map(|refusal| (Operation::Exchange, refusal));
    comparison.check_meets(&wanted, |comparison| {
        comparison.random_cases("high lists", seed, cases, |comparison, _, random| {
            let start = start(comparison, random);
            let calls = random.between(20, 40);
            demand_3(comparison, random, start, calls, |_, random, call, place| {
                draw(random, call, place);
            });
        });
    });
}

/// A chapter that is nearly too high, as Run has marked it, with room for the most elements.
fn start(comparison: &mut Comparison, random: &mut Random) -> Call {
    let (alphabet, table) = small_table(random);
    let height = HEIGHT_LIMIT - random.below(8);
    let mut tree = node_words(&generate::high_tree(random, &alphabet, height));
    let count = tree.len();
    let lent = random.words(NODE_LIMIT * width(&alphabet, &table));
    let marked = comparison.call(
        "the chapter before a list near the greatest height has other marks",
        &Call::run(&alphabet, &table, &tree, lent),
    );
    tree.extend(random.words(NODE_LIMIT - count));
    after_run(&marked, tree)
}

/// Draws an element, at the deepest place or anywhere, and a replacement that is as high as fits there, or a little higher,
/// or lower; sometimes one or the other is at fault. Every fifth time the whole chapter gives way to another, which in turn
/// is too high and is not; so both answers occur in every list, and there is room again.
fn draw(random: &mut Random, call: &mut Call, place: usize) {
    let symbols = words::symbols(&call.tree[..call.count]);
    let children = postfix::tree_children(&symbols, &words::arities(&call.alphabet));
    let whole = match place % 10 {
        0 => Some(HEIGHT_LIMIT + 1),
        5 => Some(HEIGHT_LIMIT),
        _ => None,
    };
    if let Some(height) = whole {
        call.node = call.count - 1;
        call.replacement = node_words(&generate::high_tree(random, &call.alphabet, height));
        return;
    }
    call.node = match random.below(3) {
        0 => deepest(&children),
        _ => random.below(call.count),
    };
    let most = HEIGHT_LIMIT - depth(&children, call.node);
    let height = match random.below(8) {
        0..=2 => most,
        3..=5 => most + random.between(1, 3),
        6 => 1,
        _ => random.between(1, most),
    };
    call.replacement = node_words(&generate::high_tree(random, &call.alphabet, height));
    match random.below(24) {
        0 => call.replacement.clear(),
        1 => generate::flip(random, &mut call.replacement),
        2 => call.replacement.push(words::node_word(0)),
        3 => call.node = call.count,
        _ => {}
    }
}
