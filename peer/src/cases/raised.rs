//! Document 02's U6: exchanges that raise a chapter to height 512 and beyond it, that lower it or leave it as high. The
//! result's height counts, and neither the replacement's nor the subtree's; and a chapter that is too high before the
//! exchange is refused, also where the result would not be.

use crate::call::Call;
use crate::cases::heights::{exchange, expect_faults, run, RESULT_TOO_HIGH, TOO_HIGH};
use crate::cases::shapes::{
    chain, chain_beside_low, chain_over_low, comb, combs, deepest, depth, low, shape_children, under_one,
};
use crate::compare::Comparison;
use crate::exchange::splice;
use crate::language::Tree;
use crate::limits::{HEIGHT_LIMIT, NODE_LIMIT};
use crate::marks::Table;
use crate::model;
use crate::postfix;
use crate::refusals::Condition;
use crate::totals;
use std::collections::BTreeSet;

const MOST: usize = HEIGHT_LIMIT;

pub fn compare(comparison: &mut Comparison) {
    places(comparison);
    kept_or_lowered(comparison);
    largest_replacements(comparison);
    too_high_before(comparison);
}

/// The exchange on marks as Run writes them.
fn marked_exchange(shape: &[usize], node: usize, replacement: &[usize]) -> Call {
    let mut call = exchange(shape, node, replacement);
    let table = Table::read(&call.alphabet, &call.table).expect("a table");
    let sets = model::state_sets(&call.alphabet, &table, &call.tree[..call.count]);
    call.sets[..sets.len()].copy_from_slice(&sets);
    call.totals = totals::right(&call);
    call
}

/// Compares an exchange in a chapter that is not too high, and Run on the result: either both are accepted, or both are
/// refused since the result is too high.
fn expect_result(
    comparison: &mut Comparison,
    wrong: &str,
    (shape, node, replacement): (&[usize], usize, &[usize]),
    is_too_high: bool,
) {
    let faults = |condition: Condition| if is_too_high { vec![condition] } else { vec![] };
    let call = marked_exchange(shape, node, replacement);
    expect_faults(comparison, wrong, &call, &faults(RESULT_TOO_HIGH));
    let size = postfix::sizes(&shape_children(shape))[node];
    let result = splice(shape, node, size, replacement);
    expect_faults(comparison, wrong, &run(&result), &faults(TOO_HIGH));
}

/// In chapters of all shapes the deepest place, others beside and above it, and the root: the highest replacement that fits
/// there, and one that is higher by one. It fits where it and the elements above it together are not too high.
fn places(comparison: &mut Comparison) {
    let wrong = "a replacement of some height at some place is judged otherwise";
    let mut shapes = vec![
        chain(1),
        chain(MOST - 1),
        comb(2, 0, MOST - 1),
        low(100),
        chain_beside_low(700, MOST, true),
        chain_beside_low(700, MOST - 1, false),
        chain_over_low(700, MOST),
    ];
    shapes.extend(combs().into_iter().map(|(arity, place)| comb(arity, place, MOST)));
    let mut sorts = combs().into_iter().cycle();
    for shape in shapes {
        let children = shape_children(&shape);
        let root = shape.len() - 1;
        let nodes = BTreeSet::from([0, deepest(&children), root / 2, root.max(1) - 1, root]);
        for node in nodes {
            let above = depth(&children, node);
            let (arity, place) = sorts.next().expect("a sort of comb");
            for height in [MOST - above, MOST - above + 1] {
                let replacement = comb(arity, place, height);
                let is_too_high = above + height > MOST;
                expect_result(comparison, wrong, (&shape, node, &replacement), is_too_high);
            }
        }
    }
}

/// Chapters of the greatest height that become lower, or stay as high since another part is.
fn kept_or_lowered(comparison: &mut Comparison) {
    let wrong = "an exchange that does not raise the chapter is refused";
    let high = chain(MOST);
    let twice = under_one(&[chain(MOST - 1), chain(MOST - 1)]);
    let beside = under_one(&[chain(MOST - 1), chain(1)]);
    // Of the last two, the first part's root, and of the last one, the second part.
    let (first, second) = (MOST - 2, MOST - 1);
    let cases: [(&Tree, usize, Tree); 11] = [
        (&high, 0, chain(1)),
        (&high, 1, chain(1)),
        (&high, 1, chain(2)),
        (&high, MOST / 2, chain(1)),
        (&high, MOST - 1, chain(1)),
        (&twice, 0, chain(1)),
        (&twice, first, chain(1)),
        (&twice, 2 * MOST - 2, low(9)),
        (&beside, second, chain(5)),
        (&beside, second, chain(MOST - 1)),
        (&beside, first, low(NODE_LIMIT / 2)),
    ];
    for (shape, node, replacement) in cases {
        expect_result(comparison, wrong, (shape, node, &replacement), false);
    }
}

/// As many elements as there may be, and one more, in the place of a lone one.
fn largest_replacements(comparison: &mut Comparison) {
    let wrong = "a long replacement is judged otherwise";
    for (replacement, is_too_high) in [
        (low(NODE_LIMIT), false),
        (chain_over_low(NODE_LIMIT, MOST), false),
        (chain_over_low(NODE_LIMIT, MOST + 1), true),
        (chain_beside_low(NODE_LIMIT, MOST, false), false),
        (chain_beside_low(NODE_LIMIT, MOST + 1, false), true),
        (chain(NODE_LIMIT), true),
    ] {
        expect_result(comparison, wrong, (&[0], 0, &replacement), is_too_high);
    }
    let faults = [Condition::first(15), Condition::first(16), RESULT_TOO_HIGH];
    let call = marked_exchange(&[0], 0, &low(NODE_LIMIT + 1));
    expect_faults(comparison, wrong, &call, &faults[..2]);
    let call = marked_exchange(&[0], 0, &chain(NODE_LIMIT + 1));
    expect_faults(comparison, wrong, &call, &faults);
}

/// Chapters that are too high before the exchange, and are not, or still are, after it: nothing is changed.
fn too_high_before(comparison: &mut Comparison) {
    let wrong = "a chapter that is too high before the exchange is taken";
    let high = chain(MOST + 1);
    let beside = under_one(&[chain(MOST), chain(1)]);
    let (first, second) = (MOST - 1, MOST);
    for (shape, node, replacement) in [
        (&high, 1, chain(1)),
        (&high, MOST / 2, chain(2)),
        (&high, MOST - 1, chain(1)),
        (&high, MOST, chain(1)),
        (&high, MOST, chain(MOST)),
        (&beside, 1, chain(1)),
        (&beside, first, chain(1)),
        (&beside, first, chain(MOST - 1)),
        (&chain(NODE_LIMIT), NODE_LIMIT - 1, chain(1)),
        (&chain(NODE_LIMIT), NODE_LIMIT - MOST, chain(1)),
    ] {
        let call = marked_exchange(shape, node, &replacement);
        expect_faults(comparison, wrong, &call, &[TOO_HIGH]);
    }
    for (shape, node, replacement) in [
        (&high, 0, chain(1)),
        (&high, MOST, chain(MOST + 1)),
        (&beside, 0, chain(9)),
        (&beside, first, chain(MOST)),
        (&beside, second, chain(1)),
        (&beside, second, chain(MOST)),
    ] {
        let call = marked_exchange(shape, node, &replacement);
        expect_faults(comparison, wrong, &call, &[TOO_HIGH, RESULT_TOO_HIGH]);
    }
}
