//! Matchers that are wrong about the record of totals in one respect (document 02, U10): the comparison finds each of them.

mod total_judge;
mod wrong;

use peer::call::Operation;
use peer::cases::total_places::STATES;
use peer::cases::totals::{Marks, TOTALS_OUTSIDE};
use peer::cases::{damage, faults, histories, total_histories, total_orders, total_places, totals};
use peer::compare::Comparison;
use peer::limits::TOTAL_LIMIT;
use peer::refusals::{self, Condition};
use peer::totals::{CELLS, MATCHES, NODES};
use total_judge::{Fault, Judge};

fn assert_found(cases: fn(&mut Comparison), faults: &[Fault]) {
    wrong::assert_found(|fault| Box::new(Judge::with(fault)), Fault::None, cases, faults);
}

const OF_RUNS: [Fault; 8] = [
    Fault::RunLeavesTheRecord,
    Fault::RunAddsToTheRecord,
    Fault::RunLeaves(NODES),
    Fault::RunLeaves(MATCHES),
    Fault::RunLeaves(CELLS),
    Fault::RunCountsTheWholeSlice,
    Fault::RunLooksAtTheRootAlone,
    Fault::RunJudgesTheRecord,
];

/// Faults that show in any exchange, or in any of which the marks are false.
const OF_MOVES: [Fault; 14] = [
    Fault::IsSetAfresh,
    Fault::IsLeft,
    Fault::TotalIsLeft(NODES),
    Fault::TotalIsLeft(MATCHES),
    Fault::TotalIsLeft(CELLS),
    Fault::HitsOfWhatGivesWayAreForgotten,
    Fault::WhatGivesWayIsItsRootAlone,
    Fault::ReplacementIsItsRootAlone,
    Fault::OldCellsOfAncestorsAreForgotten,
    Fault::AncestorsAreForgotten,
    Fault::LastAncestorIsForgotten,
    Fault::SpareBitsAreNotCounted,
    Fault::HitsAreThoseOfTheFirstState,
    Fault::MarksAreTakenAsTrue,
];

const OF_BOUNDS: [Fault; 25] = [
    Fault::MostIs(TOTAL_LIMIT - 1),
    Fault::MostIs(TOTAL_LIMIT + 1),
    Fault::MostIs(u32::MAX),
    Fault::ElementsAreHeldToTheMost,
    Fault::NothingIsJudged,
    Fault::IsNotJudged(NODES),
    Fault::IsNotJudged(MATCHES),
    Fault::IsNotJudged(CELLS),
    Fault::ElementsAloneAreJudged,
    Fault::BelowZeroIsTaken,
    Fault::BelowZeroIsZero,
    Fault::AboveIsTaken,
    Fault::AboveIsCut,
    Fault::SumsBeginAgain,
    Fault::SumsAreSigned,
    Fault::RecordBeforeIsJudged,
    Fault::WrongRecordIsRefused,
    Fault::IsTakenAwayFirst,
    Fault::IsAddedFirst,
    Fault::RefusedCallIsCarriedOut,
    Fault::RefusedCallWritesMarks,
    Fault::RefusedCallWritesAnAnswer,
    Fault::RefusedCallMovesTheRecord,
    Fault::NearBoundsMoreIsWorkedOut,
    Fault::NearBoundsTheRootIsLeft,
];

#[test]
fn a_wrong_keeper_of_the_record_is_not_found() {
    let others = [Fault::UnmovedIsNotJudged, Fault::FirstExchangeAloneMovesIt];
    assert_found(
        |comparison| {
            totals::source(comparison, &[Marks::Random]);
            totals::runs(comparison);
        },
        &[&OF_RUNS[..], &OF_MOVES, &OF_BOUNDS, &others].concat(),
    );
}

#[test]
fn a_wrong_counter_of_larger_sets_is_not_found() {
    let others = [
        Fault::FirstWordsAreCounted,
        Fault::MostIs(TOTAL_LIMIT - 1),
        Fault::MostIs(TOTAL_LIMIT + 1),
        Fault::IsTakenAwayFirst,
        Fault::IsAddedFirst,
        Fault::RefusedCallWritesMarks,
        Fault::NearBoundsMoreIsWorkedOut,
        Fault::NearBoundsTheRootIsLeft,
    ];
    assert_found(
        |comparison| total_places::every_place(comparison, &STATES[1..2], &[Marks::True, Marks::Random]),
        &[&OF_MOVES[..], &others].concat(),
    );
}

#[test]
fn a_wrong_counter_of_many_elements_is_not_found() {
    assert_found(
        total_places::some_nodes,
        &[
            Fault::ReplacementIsCountedTo(512),
            Fault::ReplacementIsCountedTo(1024),
            Fault::ReplacementIsCountedTo(2044),
            Fault::ElementsAreHeldToTheMost,
            Fault::IsTakenAwayFirst,
            Fault::NearBoundsTheRootIsLeft,
        ],
    );
}

#[test]
fn a_judge_in_another_order_is_not_found() {
    let mut conditions = refusals::conditions(Operation::Exchange);
    conditions.retain(|condition| *condition != TOTALS_OUTSIDE);
    let before_each: Vec<Fault> = conditions.into_iter().map(Fault::IsJudgedBefore).collect();
    let other = [Fault::RefusedBy16MovesTheRecord];
    assert_found(total_orders::compare, &[&before_each[..], &other].concat());
    assert_found(
        |comparison| faults::compare_operation(comparison, Operation::Exchange),
        &[
            Fault::IsJudgedBefore(Condition::first(16)),
            Fault::IsJudgedBefore(Condition::second(24)),
            Fault::RefusedCallWritesMarks,
        ],
    );
    assert_found(
        |comparison| faults::compare_operation(comparison, Operation::Run),
        &[Fault::RefusedRunSetsTheRecord, Fault::RunLeavesTheRecord],
    );
}

#[test]
fn a_wrong_keeper_of_lists_is_not_found() {
    let others = [
        Fault::RunLeavesTheRecord,
        Fault::RunCountsTheWholeSlice,
        Fault::FirstExchangeAloneMovesIt,
        Fault::UnmovedIsNotJudged,
        Fault::RefusedBy16MovesTheRecord,
    ];
    assert_found(
        |comparison| total_histories::compare(comparison, 5, 30),
        &[&OF_MOVES[..], &OF_BOUNDS, &others].concat(),
    );
    assert_found(
        |comparison| histories::compare(comparison, 5, 8),
        &[
            Fault::RunLeavesTheRecord,
            Fault::IsLeft,
            Fault::FirstExchangeAloneMovesIt,
            Fault::HitsOfWhatGivesWayAreForgotten,
            Fault::OldCellsOfAncestorsAreForgotten,
            Fault::SpareBitsAreNotCounted,
            Fault::MarksAreTakenAsTrue,
            Fault::WrongRecordIsRefused,
        ],
    );
}

#[test]
fn a_wrong_keeper_of_damaged_calls_is_not_found() {
    assert_found(
        |comparison| damage::compare(comparison, 5, 0),
        &[
            Fault::IsSetAfresh,
            Fault::NothingIsJudged,
            Fault::IsNotJudged(MATCHES),
            Fault::RefusedCallMovesTheRecord,
            Fault::RunAddsToTheRecord,
        ],
    );
}
