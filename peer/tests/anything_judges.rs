//! Matchers that are wrong about `anything` in one respect (document 02, U7): the comparison finds each of them.

mod anything_judge;
mod wrong;

use anything_judge::{Fault, Judge};
use peer::call::Operation;
use peer::cases::{
    anything, anything_histories, anything_members, anything_random, anything_shapes, anything_tables,
    anything_users, faults,
};
use peer::compare::Comparison;

fn assert_found(cases: fn(&mut Comparison), faults: &[Fault]) {
    wrong::assert_found(|fault| Box::new(Judge(fault)), Fault::None, cases, faults);
}

/// Faults of the table of any rule with `anything`.
const OF_TABLES: [Fault; 20] = [
    Fault::IsTheEmptyRule,
    Fault::HasNoEntries,
    Fault::IsCountedAsOneState,
    Fault::EntriesAreNotReached,
    Fault::ConstantsLeadIntoEach,
    Fault::ConstantsAreLeftOut,
    Fault::LastConstantIsLeftOut,
    Fault::HolesAreLeftOut,
    Fault::ConstantsAlone,
    Fault::HighestRankAlone,
    Fault::FirstSymbolAlone,
    Fault::LastSymbolIsLeftOut,
    Fault::PartsAreAnEntry,
    Fault::LastPartIsAnEntry,
    Fault::MovesLeadIntoAnEntry,
    Fault::ConstantsHaveMovesToo,
    Fault::EntriesComeFirst,
    Fault::SymbolsFall,
    Fault::EntriesFall,
    Fault::IsNoRuleWord,
];

#[test]
fn a_wrong_reader_of_the_word_is_not_found() {
    let of_words = [Fault::SpareBitsAreTaken, Fault::TakesAPart];
    assert_found(anything::compare, &[&OF_TABLES[..], &of_words].concat());
}

#[test]
fn a_wrong_language_is_not_found() {
    let in_products = [Fault::IsTheEmptyRuleInProducts];
    let all = [&OF_TABLES[..], &in_products].concat();
    assert_found(anything_members::compare, &all);
    assert_found(|comparison| anything_shapes::compare(comparison, 5, 4), &all);
}

#[test]
fn a_wrong_judge_of_lengths_is_not_found() {
    assert_found(
        anything_tables::compare,
        &[
            Fault::LongTableIsTaken,
            Fault::LengthWordIsNotCounted,
            Fault::MostIs(2046),
            Fault::MostIs(2047),
            Fault::MostIs(2049),
            Fault::MostIs(2050),
            Fault::MostIs(4095),
            Fault::MostWithoutAnything,
            Fault::OneIsCounted,
            Fault::CountBeginsAgain,
            Fault::IsRefusedBy(6),
            Fault::IsRefusedBy(7),
            Fault::IsJudgedBefore(6),
            Fault::IsJudgedAfter(7),
            Fault::LongSliceIsEnough,
            Fault::RefusedCallWritesAHead,
        ],
    );
}

#[test]
fn a_judge_of_compile_in_another_order_is_not_found() {
    let early = [1, 2, 3, 4, 6].map(Fault::IsJudgedBefore);
    let late = [
        Fault::IsJudgedAfter(7),
        Fault::LongTableIsTaken,
        Fault::IsRefusedBy(7),
        Fault::IsNoRuleWord,
        Fault::SpareBitsAreTaken,
    ];
    assert_found(
        |comparison| faults::compare_operation(comparison, Operation::Compile),
        &[&early[..], &late].concat(),
    );
}

#[test]
fn a_wrong_matcher_of_random_rules_is_not_found() {
    let others = [
        Fault::SpareBitsAreTaken,
        Fault::IsTheEmptyRuleInProducts,
        Fault::LongTableIsTaken,
        Fault::MostWithoutAnything,
        Fault::OneIsCounted,
        Fault::IsRefusedBy(7),
        Fault::IsJudgedBefore(6),
        Fault::IsJudgedAfter(7),
        Fault::LongTablesAreRefused(1148),
    ];
    assert_found(
        |comparison| anything_random::compare(comparison, 5, 0),
        &[&OF_TABLES[..], &others].concat(),
    );
}

#[test]
fn a_wrong_user_of_long_tables_is_not_found() {
    assert_found(
        anything_users::compare,
        &[
            Fault::LongTablesAreRefused(1148),
            Fault::LongTablesAreRefused(2047),
            Fault::LongTablesAreCut(1148),
            Fault::LongTablesAreCut(2047),
            Fault::LongTablesAreRefusedInExchange,
            Fault::MostIs(2047),
        ],
    );
    assert_found(
        |comparison| anything_histories::compare(comparison, 5, 16),
        &[
            Fault::LongTablesAreRefused(1148),
            Fault::LongTablesAreCut(1148),
            Fault::LongTablesAreRefusedInExchange,
        ],
    );
}
