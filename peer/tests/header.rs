//! The constants of the C header beside the limits and the numbers that the model has from documents 01 and 02.

use peer::call::Operation;
use peer::limits;
use peer::refusals;
use std::collections::BTreeMap;

const HEADER: &str = include_str!("../../include/haqbylur.h");

/// The constants whose name begins with HAQBYLUR_, without that prefix, with their values.
fn constants() -> BTreeMap<&'static str, usize> {
    let constant = |line: &'static str| {
        let (name, value) = line.strip_prefix("#define HAQBYLUR_")?.split_once(' ')?;
        let digits = value.split('u').next()?;
        Some((name, digits.parse().ok()?))
    };
    HEADER.lines().filter_map(constant).collect()
}

#[test]
fn a_limit_of_the_header_is_not_the_documents() {
    let limits = [
        ("MOST_SYMBOLS", limits::SYMBOL_LIMIT),
        ("MOST_CONSTANTS", limits::CONSTANT_LIMIT),
        ("MOST_RANK", limits::ARITY_LIMIT),
        ("MOST_RULE_WORDS", limits::EXPRESSION_LIMIT),
        ("MOST_STATES", limits::STATE_LIMIT),
        ("MOST_TABLE_WORDS", limits::TABLE_LIMIT),
        ("MOST_COMPILED_WORDS", limits::COMPILED_LIMIT),
        ("MOST_ELEMENTS", limits::NODE_LIMIT),
        ("MOST_HEIGHT", limits::HEIGHT_LIMIT),
        ("MOST_CELLS", limits::TOTAL_LIMIT as usize),
    ];
    let mut stated = constants();
    stated.retain(|name, _| name.starts_with("MOST_"));
    assert_eq!(stated, BTreeMap::from(limits));
}

#[test]
fn a_refusal_number_has_no_name_or_two() {
    let mut stated = constants();
    stated.retain(|name, _| !name.starts_with("MOST_"));
    let mut values: Vec<usize> = stated.into_values().collect();
    values.sort_unstable();
    let operations = Operation::ALL.iter();
    let mut numbers: Vec<usize> = operations
        .flat_map(|operation| refusals::conditions(*operation))
        .map(|condition| condition.number as usize)
        .chain([0])
        .collect();
    numbers.sort_unstable();
    numbers.dedup();
    assert_eq!(values, numbers);
}
