//! Faults of a rule with `anything` (document 02, U7), for `faults`, where each meets every other fault.

use crate::call::Call;
use crate::cases::faults::{add_constants, pad, put, Fault};
use crate::limits::CONSTANT_LIMIT;
use crate::words::{entry_word, Operator};

/// Room for any table, however long.
pub const ROOM: usize = 12_000;

pub fn rule() -> Vec<Fault> {
    vec![
        (4, |call| {
            put(&mut call.expression, 0, Operator::Anything.word() | 1)
        }),
        (4, |call| {
            put(&mut call.expression, 3, Operator::Anything.word() | 1 << 27)
        }),
        (5, |call| call.expression.push(Operator::Anything.word())),
        (5, |call| call.expression.insert(0, Operator::Anything.word())),
        (5, |call| put(&mut call.expression, 2, Operator::Anything.word())),
        (25, |call| {
            widen(call);
            call.expression = unions(12);
        }),
        (25, |call| {
            // Whatever the rule is, the union with so many is too long.
            widen(call);
            let more = [Operator::Anything.word(), Operator::Union.word()];
            call.expression.extend(more.repeat(12));
        }),
        (25, |call| {
            // It has too many states too.
            add_constants(call, CONSTANT_LIMIT);
            widen(call);
            call.expression = unions(31);
        }),
    ]
}

/// Appends symbols with children to the alphabet, and makes room for any table.
fn widen(call: &mut Call) {
    call.alphabet.extend([entry_word(4); 40]);
    pad(&mut call.table, ROOM, 0);
}

/// So many times `anything` in unions.
pub fn unions(count: usize) -> Vec<u32> {
    let mut rule = vec![Operator::Anything.word(); count];
    rule.resize(2 * count - 1, Operator::Union.word());
    rule
}
