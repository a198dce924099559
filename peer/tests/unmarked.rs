//! Without holes all reads as before (document 02, U8): where no alphabet word has bit 8, the numbers are
//! those of a judge to whom that bit is a spare one, and 26 is none of them.

use peer::call::{Answer, Call, Matcher, Operation};
use peer::cases::{damage, examples, faults, histories, limits, random};
use peer::compare::Comparison;
use peer::model::answer_with;
use peer::refusals::{self, Condition};
use peer::words::Operator;

/// Judges 1 and 4 as document 01 alone has them, and no 26. Of alphabets with the bit it says what the model
/// says.
struct Before;

impl Matcher for Before {
    fn answer(&mut self, call: &Call) -> Answer {
        let mut found = refusals::faults(call);
        if call.alphabet.iter().all(|word| word >> 8 & 1 == 0) {
            found.retain(|condition| ![1, 4, 26].contains(&condition.number));
            if is_no_alphabet(&call.alphabet) {
                found.push(Condition::first(1));
            }
            if call.operation == Operation::Compile && is_no_rule(call) {
                found.push(Condition::first(4));
            }
        }
        found.sort_by_key(|condition| (place(call.operation, *condition), condition.number));
        answer_with(found.first().copied(), call)
    }
}

fn place(operation: Operation, condition: Condition) -> Option<usize> {
    let order = refusals::conditions(operation);
    order.iter().position(|own| *own == condition)
}

fn is_no_alphabet(alphabet: &[u32]) -> bool {
    alphabet.is_empty() || alphabet.len() > 64 || alphabet.iter().any(|word| rank(*word).is_none())
}

fn rank(word: u32) -> Option<u32> {
    word.checked_sub(0x1000_0000).filter(|rank| *rank <= 4)
}

fn is_no_rule(call: &Call) -> bool {
    let rank = |symbol: usize| rank(*call.alphabet.get(symbol)?);
    call.expression.iter().any(|word| match Operator::read(*word) {
        None => true,
        Some(Operator::Symbol(symbol)) => rank(symbol).is_none(),
        Some(Operator::Product(constant) | Operator::Closure(constant)) => rank(constant) != Some(0),
        Some(Operator::Empty | Operator::Union | Operator::Anything) => false,
    })
}

#[test]
fn without_holes_something_reads_otherwise() {
    let mut comparison = Comparison::with(Box::new(Before));
    examples::compare(&mut comparison);
    limits::compare(&mut comparison);
    faults::compare(&mut comparison);
    damage::compare(&mut comparison, 5, 60);
    random::compare(&mut comparison, 5, 200);
    histories::compare(&mut comparison, 5, 60);
    assert_eq!(comparison.differences(), 0);
}

#[test]
fn random_inputs_without_holes_are_refused_by_26() {
    let mut comparison = Comparison::with(Box::new(Before));
    random::compare(&mut comparison, 6, 200);
    histories::compare(&mut comparison, 6, 60);
    let mut refusals = comparison
        .numbers
        .values()
        .flat_map(|numbers| numbers.keys().flatten());
    assert!(refusals.all(|condition| condition.number != 26));
}
