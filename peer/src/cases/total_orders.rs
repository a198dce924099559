//! Document 02's U10: 27 is the last number of Exchange. Each other one comes first, where the record would come out just within
//! the bounds and where it would come out just outside.

use crate::call::Call;
use crate::cases::heights::{expect_faults, RESULT_TOO_HIGH, TOO_HIGH};
use crate::cases::hole_faults;
use crate::cases::holes::{HOLE_IN_CHAPTER, HOLE_IN_REPLACEMENT};
use crate::cases::in_slices::of_all_arities;
use crate::cases::limits::expect;
use crate::cases::shapes::{chain, comb, low};
use crate::cases::total_places::spread;
use crate::cases::totals::{bounds, differences, exchange, Marks, EACH_TOTAL, TOTALS_OUTSIDE};
use crate::compare::Comparison;
use crate::limits::{HEIGHT_LIMIT, NODE_LIMIT};
use crate::model;
use crate::refusals::Condition;
use crate::totals::{self, Totals};
use crate::words::{entry_word, node_word, node_words};

pub fn compare(comparison: &mut Comparison) {
    first_faults(comparison);
    worked_out(comparison);
}

/// The record as it is, one that is far beyond, and for each total those in which it comes out at zero, at the figure, and just
/// beyond; each with whether it is beyond.
fn near_records(call: &Call, differences: [i64; 3]) -> Vec<(Totals, bool)> {
    let mut records = vec![(call.totals, false), ([u32::MAX; 3], true)];
    for total in EACH_TOTAL {
        let (least, most) = bounds(differences[total]);
        let beyond = [(least - 1, true), (least, false), (most, false), (most + 1, true)];
        for (value, is_beyond) in beyond.into_iter().filter(|(value, _)| *value >= 0) {
            let mut record = call.totals;
            record[total] = value as u32;
            records.push((record, is_beyond));
        }
    }
    records
}

/// A leaf gives way to twelve elements; the slices have room for the result alone.
fn growing() -> Call {
    let table = spread(40);
    let (used, replacement) = (node_words(&low(30)), node_words(&low(12)));
    exchange(
        (&of_all_arities(), &table),
        Marks::True,
        &used,
        21,
        &replacement,
        41,
    )
}

/// A subtree gives way to a leaf.
fn shrinking() -> Call {
    let table = spread(40);
    let used = node_words(&comb(4, 1, 8));
    exchange(
        (&of_all_arities(), &table),
        Marks::True,
        &used,
        19,
        &node_words(&[0]),
        41,
    )
}

type Spoil = (u32, fn(&mut Call));

/// A call that is accepted with a right record is given one fault; the record is left as it was chosen for the call without.
fn first_faults(comparison: &mut Comparison) {
    let spoils: [Spoil; 16] = [
        (1, |call| call.alphabet[4] = entry_word(5)),
        (1, |call| call.alphabet.resize(65, entry_word(1))),
        (2, |call| call.alphabet.resize(22, entry_word(0))),
        (8, |call| call.table[0] = 0),
        (9, |call| call.count = 0),
        (9, |call| call.count = NODE_LIMIT + 1),
        (10, |call| call.tree[0] = node_word(9)),
        (11, |call| call.count -= 1),
        (11, |call| call.tree[0] = node_word(1)),
        (12, |call| call.sets.truncate(2 * call.count - 1)),
        (14, |call| call.node = call.count),
        (15, |call| call.replacement.clear()),
        (15, |call| call.replacement.push(node_word(0))),
        (15, |call| call.replacement[0] = node_word(9)),
        (16, |call| call.replacement = node_words(&low(NODE_LIMIT))),
        (16, |call| call.replacement = node_words(&chain(42))),
    ];
    for call in [growing(), shrinking()] {
        let answer = comparison.call("an exchange without a fault differs", &call);
        for (record, _) in near_records(&call, differences(&call, &answer)) {
            for (number, spoil) in spoils {
                let mut spoiled = call.clone();
                spoiled.totals = record;
                spoil(&mut spoiled);
                expect(comparison, "27 comes before another number", &spoiled, number);
            }
        }
    }
}

/// What may be changed in an exchange that can still be worked out, and the fault that it then has.
type Fault = (Condition, fn(&mut Call));

/// Exchanges that have another fault and can be worked out all the same: where the record comes out of bounds, they have both.
fn worked_out(comparison: &mut Comparison) {
    let faults: [Fault; 7] = [
        (TOO_HIGH, |call| {
            use_chapter(call, &chain(HEIGHT_LIMIT + 1), HEIGHT_LIMIT, &chain(3))
        }),
        (HOLE_IN_CHAPTER, |call| hole_faults::tree()[0].1(call)),
        (HOLE_IN_REPLACEMENT, |call| hole_faults::replacement()[0](call)),
        (Condition::first(16), |call| call.tree.truncate(40)),
        (Condition::first(16), |call| call.sets.truncate(2 * 41 - 1)),
        (RESULT_TOO_HIGH, |call| {
            use_chapter(call, &chain(HEIGHT_LIMIT), 0, &chain(2))
        }),
        (RESULT_TOO_HIGH, |call| {
            use_chapter(call, &comb(4, 3, 90), 3 * 89, &comb(3, 0, HEIGHT_LIMIT - 88))
        }),
    ];
    for (condition, change) in faults {
        let mut call = growing();
        change(&mut call);
        call.totals = totals::right(&call);
        // What it would do without the fault.
        let answer = model::answer_with(None, &with_room(&call));
        for (record, is_beyond) in near_records(&call, differences(&call, &answer)) {
            call.totals = record;
            let mut faults = vec![condition];
            if is_beyond {
                faults.push(TOTALS_OUTSIDE);
            }
            expect_faults(comparison, "27 comes before another number", &call, &faults);
        }
    }
}

/// Gives a call another chapter, element and replacement, and room for the most elements.
fn use_chapter(call: &mut Call, used: &[usize], node: usize, replacement: &[usize]) {
    let (used, replacement) = (node_words(used), node_words(replacement));
    *call = exchange(
        (&call.alphabet, &call.table),
        Marks::True,
        &used,
        node,
        &replacement,
        NODE_LIMIT,
    );
}

/// The same call with room for the most elements, which have two words each.
fn with_room(call: &Call) -> Call {
    let mut call = call.clone();
    call.tree.resize(NODE_LIMIT, 0);
    call.sets.resize(2 * NODE_LIMIT, 0);
    call
}
