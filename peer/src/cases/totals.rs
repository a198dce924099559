//! Document 02's U10: the record of an exchange is right or wrong, and each total comes out of it just within the bounds or just
//! outside. So the same exchange is compared with many records, near the bounds and far from them: where it is accepted, it
//! does the same to chapter and marks.

use crate::automaton;
use crate::call::{Answer, Call};
use crate::cases::examples::{self, A, B, D, F, G};
use crate::chance::Random;
use crate::compare::Comparison;
use crate::limits::TOTAL_LIMIT;
use crate::marks::Table;
use crate::model;
use crate::refusals::Condition;
use crate::totals::{self, Totals, CELLS, MATCHES, NODES};
use crate::words::node_words;
use std::collections::BTreeSet;

/// A total would come out of the exchange below zero or above the figure.
pub const TOTALS_OUTSIDE: Condition = Condition::first(27);

pub const EACH_TOTAL: [usize; 3] = [NODES, MATCHES, CELLS];

const MOST: i64 = TOTAL_LIMIT as i64;

pub fn compare(comparison: &mut Comparison) {
    source(comparison, &ALL_MARKS);
    runs(comparison);
}

/// By how much an exchange that was accepted with a right record moves each total.
pub fn differences(call: &Call, answer: &Answer) -> [i64; 3] {
    EACH_TOTAL.map(|total| i64::from(answer.after.totals[total]) - i64::from(call.totals[total]))
}

/// The least and the most that a total may be before an exchange that moves it by so much.
pub fn bounds(difference: i64) -> (i64, i64) {
    ((-difference).max(0), MOST - difference)
}

/// How many values of each total are tried.
#[derive(Clone, Copy, PartialEq)]
pub enum Values {
    /// The bounds, and one beyond each.
    AtBounds,
    /// Also at many distances from them, around the right value, the figure, and the numbers at which words begin again.
    Many,
}

/// What a total may be that is rightly this and is moved by so much.
fn values(right: u32, difference: i64, which: Values) -> BTreeSet<u32> {
    let (least, most) = bounds(difference);
    let around = |value: i64| [value - 1, value, value + 1];
    let mut all = vec![least - 1, least, most, most + 1, i64::from(u32::MAX)];
    if which == Values::Many {
        let whole = 1 << 32;
        for value in [
            0,
            i64::from(right),
            MOST,
            -difference,
            MOST - difference,
            whole - difference,
        ] {
            all.extend(around(value));
        }
        all.extend([MOST / 2, 1 << 31, (1 << 31) - 1, whole - MOST, whole - 2]);
        all.extend((1..22).flat_map(|bit| [least + (1 << bit), most - (1 << bit)]));
    }
    all.into_iter()
        .filter_map(|value| u32::try_from(value).ok())
        .collect()
}

/// The records in which one total is wrong, and those in which all are at their least, at their most, and beyond.
pub fn records(right: Totals, differences: [i64; 3], which: Values) -> BTreeSet<Totals> {
    let mut all = BTreeSet::from([right]);
    for total in EACH_TOTAL {
        for value in values(right[total], differences[total], which) {
            let mut record = right;
            record[total] = value;
            all.insert(record);
        }
    }
    let [least, most] = [0, 1].map(|end| {
        differences.map(|difference| {
            let (least, most) = bounds(difference);
            [least, most][end] as u32
        })
    });
    all.extend([
        least,
        most,
        [0; 3],
        [TOTAL_LIMIT; 3],
        [TOTAL_LIMIT - 1; 3],
        [u32::MAX; 3],
    ]);
    // Two at their bounds and the third beyond, or one at each.
    all.extend(EACH_TOTAL.map(|total| {
        let mut record = most;
        record[total] = most[total].saturating_add(1);
        record
    }));
    all.insert([least[0], most[1], least[2]]);
    all
}

/// Compares an exchange that is accepted with its record, which is right, with all these records too. Answers what the right
/// one makes of it.
pub fn with_records(comparison: &mut Comparison, wrong: &str, call: &Call, which: Values) -> Answer {
    let right = comparison.call(wrong, call);
    let mut after = right.after.clone();
    after.count = right.values[0] as usize;
    comparison.check(
        "a right record is refused, or is wrong afterwards",
        right.number == 0 && after.totals == totals::right(&after),
        || call.to_string(),
    );
    let differences = differences(call, &right);
    for record in records(call.totals, differences, which) {
        let mut changed = call.clone();
        changed.totals = record;
        let out = EACH_TOTAL.map(|total| i64::from(record[total]) + differences[total]);
        let is_within = out.iter().all(|total| (0..=MOST).contains(total));
        let mut expected = Answer::unwritten(TOTALS_OUTSIDE.number, &changed);
        if is_within {
            expected = right.clone();
            expected.after.totals = out.map(|total| total as u32);
        }
        let found = comparison.call(wrong, &changed);
        comparison.check(wrong, found == expected, || changed.to_string());
    }
    right
}

/// The stored marks of a chapter: as Run writes them, or false in some way.
#[derive(Clone, Copy, Debug, PartialEq)]
pub enum Marks {
    True,
    None,
    All,
    /// All but those of states: bits beyond the last state.
    Spare,
    Random,
    /// True but for one bit of a word, which may be any.
    OneBit(usize),
}

pub const ALL_MARKS: [Marks; 9] = [
    Marks::True,
    Marks::None,
    Marks::All,
    Marks::Spare,
    Marks::Random,
    Marks::OneBit(0),
    Marks::OneBit(2),
    Marks::OneBit(31),
    Marks::OneBit(63),
];

/// An exchange in this chapter with such marks, a right record, and room for so many elements.
pub fn exchange(
    (alphabet, table): (&[u32], &[u32]),
    marks: Marks,
    used: &[u32],
    node: usize,
    replacement: &[u32],
    room: usize,
) -> Call {
    let read = Table::read(alphabet, table).expect("a table");
    let mut sets = model::state_sets(alphabet, &read, used);
    let spare = 32 * read.width() - read.states;
    let words = sets.len();
    match marks {
        Marks::True => {}
        Marks::None => sets.fill(0),
        Marks::All => sets.fill(u32::MAX),
        Marks::Spare => {
            for row in sets.chunks_mut(read.width()) {
                row[read.width() - 1] |= !(u32::MAX >> spare);
            }
        }
        Marks::Random => sets = Random::of_case("false marks", 1, node as u64).words(words),
        Marks::OneBit(bit) => sets[(node + bit) % words] ^= 1 << (bit % 32),
    }
    let mut tree = used.to_vec();
    tree.resize(room, 0x1234_5678);
    sets.resize(room * read.width(), 0x0f0f_0f0f);
    Call::exchange(alphabet, table, tree, used.len(), sets, node, replacement)
}

/// The source's chapter: every element gives way to a smaller subtree, a larger one, and to what it is already.
pub fn source(comparison: &mut Comparison, all_marks: &[Marks]) {
    let own = examples::alphabet();
    let table = automaton::table(&own, &examples::expression()).expect("an expression");
    let wrong = "a record of the source's chapter is taken otherwise";
    let used = examples::tree();
    for marks in all_marks {
        for node in 0..used.len() {
            for replacement in [vec![A], vec![D], vec![A, B, F], vec![A, B, F, G, D, F]] {
                let call = exchange((&own, &table), *marks, &used, node, &node_words(&replacement), 15);
                with_records(comparison, wrong, &call, Values::Many);
            }
        }
    }
    // The root gives way to the chapter itself, so that no total is moved.
    for marks in [Marks::True, Marks::All] {
        let call = exchange((&own, &table), marks, &used, used.len() - 1, &used, 15);
        let answer = with_records(comparison, wrong, &call, Values::Many);
        let is_unmoved = differences(&call, &answer) == [0; 3];
        let wrong = "a chapter in its own place moves a total";
        comparison.check(wrong, is_unmoved == (marks == Marks::True), || call.to_string());
    }
}

/// Run sets the record, whatever it was.
pub fn runs(comparison: &mut Comparison) {
    let own = examples::alphabet();
    let table = automaton::table(&own, &examples::expression()).expect("an expression");
    for used in [examples::tree(), node_words(&[D]), node_words(&[A, B, F])] {
        let mut call = Call::run(&own, &table, &used, vec![0xffff_0000; 9]);
        let set = comparison.call("Run sets another record", &call).after.totals;
        for record in records(set, [0; 3], Values::Many) {
            call.totals = record;
            let found = comparison.call("Run sets another record", &call);
            let is_set = found.number == 0 && found.after.totals == set;
            comparison.check("the record before Run counts", is_set, || call.to_string());
        }
    }
}
