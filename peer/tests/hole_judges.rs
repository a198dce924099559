//! Matchers that are wrong about holes in one respect (document 02, U8): the comparison finds each of them.

mod hole_judge;
mod wrong;

use hole_judge::{Fault, Judge};
use peer::call::Operation;
use peer::cases::{faults, hole_histories, hole_places, hole_random, hole_rules, holes};
use peer::compare::Comparison;
use peer::refusals::Condition;

fn assert_found(cases: fn(&mut Comparison), faults: &[Fault]) {
    wrong::assert_found(|fault| Box::new(Judge::with(fault)), Fault::None, cases, faults);
}

#[test]
fn a_wrong_judge_of_alphabets_is_not_found() {
    assert_found(
        holes::compare,
        &[
            Fault::HoleIsNoEntry,
            Fault::HoleIsAnyConstant,
            Fault::HoleOfAnyRankIsTaken,
            Fault::HoleIsNotCounted,
            Fault::ListRefusesHoles,
            Fault::FirstHoleIsKnown,
            Fault::FirstElementIsLookedAt,
            Fault::UsedChapterIsLookedAt,
            Fault::ReplacementIsLookedAt,
        ],
    );
}

#[test]
fn a_wrong_judge_of_rules_is_not_found() {
    assert_found(
        |comparison| hole_rules::compare(comparison, 5, 40),
        &[
            Fault::HoleIsNoEntry,
            Fault::HoleIsAnyConstant,
            Fault::HoleIsNotCounted,
            Fault::HoleHasNoEntries,
            Fault::HoleHasNoMoves,
            Fault::AnyConstantIsNamed,
            Fault::HolesAloneAreNamed,
            Fault::HoleIsNoSymbol,
            Fault::HoleInARuleIsRefusedBy26,
        ],
    );
}

#[test]
fn a_wrong_judge_of_chapters_is_not_found() {
    assert_found(
        |comparison| hole_places::every_place(comparison, &[1, 2, 7, 40], 1),
        &[
            Fault::HoleIsAnyConstant,
            Fault::HolesBelow32AreKnown,
            Fault::RootIsLookedAt,
            Fault::FirstElementIsLookedAt,
            Fault::FirstElementIsLeftOut,
            Fault::LastLeafIsLeftOut,
            Fault::RunLooksAtNothing,
            Fault::UsedChapterIsLookedAt,
            Fault::ReplacementIsLookedAt,
            Fault::WholeSliceIsLookedAt,
            Fault::ResultIsLookedAt,
            Fault::WhatGivesWayIsLeftOut,
            Fault::RefusedCallIsCarriedOut,
            Fault::LargeChaptersAreLookedAt,
        ],
    );
}

#[test]
fn a_wrong_judge_of_large_chapters_is_not_found() {
    let by_run = |words: usize| {
        [
            Fault::FirstOfEachRunIsLeftOut(words),
            Fault::LastOfEachRunIsLeftOut(words),
            Fault::LastRunIsLeftOut(words),
        ]
    };
    assert_found(
        |comparison| hole_places::every_place(comparison, &[575], 1),
        &[&[Fault::SmallChaptersAreLookedAt], &by_run(64)[..], &by_run(4)].concat(),
    );
}

#[test]
fn a_judge_of_run_in_another_order_is_not_found() {
    let early = [8, 9, 10, 11, 24].map(|number| Fault::ChapterIsJudgedBefore(Operation::Run, number));
    let late = [Fault::ChapterIsJudgedAfter(Operation::Run, 12)];
    assert_found(
        |comparison| faults::compare_operation(comparison, Operation::Run),
        &[&early[..], &late].concat(),
    );
}

#[test]
fn a_judge_of_exchange_in_another_order_is_not_found() {
    let early = [10, 11, 24].map(|number| Fault::ChapterIsJudgedBefore(Operation::Exchange, number));
    let late = [12, 16].map(|number| Fault::ChapterIsJudgedAfter(Operation::Exchange, number));
    let replacement = [
        Fault::ReplacementIsJudgedBefore(14),
        Fault::ReplacementIsJudgedBefore(15),
        Fault::ReplacementIsJudgedAfter(Condition::first(16)),
        Fault::ReplacementIsJudgedAfter(Condition::second(24)),
    ];
    assert_found(
        |comparison| faults::compare_operation(comparison, Operation::Exchange),
        &[&early[..], &late, &replacement].concat(),
    );
}

#[test]
fn a_wrong_judge_of_random_chapters_is_not_found() {
    assert_found(
        |comparison| hole_random::compare(comparison, 5, 100),
        &[
            Fault::HoleIsAnyConstant,
            Fault::HoleIsNotCounted,
            Fault::HoleHasNoEntries,
            Fault::HoleHasNoMoves,
            Fault::AnyConstantIsNamed,
            Fault::HoleIsNoSymbol,
            Fault::FirstHoleIsKnown,
            Fault::HolesWithMovesAreKnown,
            Fault::FirstElementIsLookedAt,
            Fault::FirstElementIsLeftOut,
            Fault::LastLeafIsLeftOut,
            Fault::RunLooksAtNothing,
            Fault::UsedChapterIsLookedAt,
            Fault::ReplacementIsLookedAt,
            Fault::WhatGivesWayIsLeftOut,
        ],
    );
}

#[test]
fn a_wrong_judge_of_lists_is_not_found() {
    assert_found(
        |comparison| hole_histories::compare(comparison, 5, 30),
        &[
            Fault::HoleIsAnyConstant,
            Fault::FirstElementIsLookedAt,
            Fault::UsedChapterIsLookedAt,
            Fault::ReplacementIsLookedAt,
            Fault::ResultIsLookedAt,
            Fault::WhatGivesWayIsLeftOut,
            Fault::FirstExchangeAloneIsJudged,
            Fault::RefusedCallIsCarriedOut,
        ],
    );
}
