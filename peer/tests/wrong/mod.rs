//! Matchers with one fault each, which the comparison must find. In a matcher without a fault it finds nothing.

use peer::call::Matcher;
use peer::compare::Comparison;
use std::fmt::Debug;

/// How many differences these cases find in this matcher; the checks of the model hold with any.
fn differences(cases: fn(&mut Comparison), matcher: Box<dyn Matcher>) -> u64 {
    let mut comparison = Comparison::quietly_with(matcher);
    cases(&mut comparison);
    assert_eq!(comparison.checks.differences, 0);
    comparison.differences()
}

/// `none` is no fault, and `with` makes the matcher that has one.
pub fn assert_found<Fault: Copy + Debug>(
    with: fn(Fault) -> Box<dyn Matcher>,
    none: Fault,
    cases: fn(&mut Comparison),
    faults: &[Fault],
) {
    assert_eq!(differences(cases, with(none)), 0);
    for fault in faults {
        assert!(differences(cases, with(*fault)) > 0, "{fault:?} is not found");
    }
}
