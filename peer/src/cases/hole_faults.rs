//! Holes as faults of a call (document 02, U8), for `faults`, where each meets every other fault.

use crate::call::{Call, Operation};
use crate::cases::examples::{A, C, D, F};
use crate::cases::faults::{pad, put, set_bit, Change, Fault};
use crate::limits::TABLE_LIMIT;
use crate::words::{self, node_word, Entry};

/// The source's rule names two constants: neither is a hole, or only one.
pub fn rule() -> Vec<Fault> {
    vec![
        (4, |call| {
            a_hole(call);
        }),
        (4, |call| set_bit(&mut call.alphabet, C, 8)),
        (4, |call| set_bit(&mut call.alphabet, A, 8)),
    ]
}

/// A hole at the first place of the used tree, at another leaf of the source's, and one that was there before
/// as another constant.
pub fn tree() -> Vec<Fault> {
    vec![
        (26, |call| {
            let hole = a_hole(call);
            put(&mut call.tree, 0, hole);
        }),
        (26, |call| {
            let hole = a_hole(call);
            put(&mut call.tree, 3, hole);
        }),
        (26, |call| set_bit(&mut call.alphabet, D, 8)),
    ]
}

/// A hole at the first place of the replacement, alone, and in the middle.
pub fn replacement() -> [Change; 3] {
    [
        |call| {
            let hole = a_hole(call);
            put(&mut call.replacement, 0, hole);
        },
        |call| call.replacement = vec![a_hole(call)],
        |call| call.replacement = vec![node_word(A), a_hole(call), node_word(F)],
    ]
}

/// The word of a node with a hole, which is put at the end of an alphabet that has none; a compiled table
/// then needs more room.
fn a_hole(call: &mut Call) -> u32 {
    if words::holes(&call.alphabet).is_empty() {
        call.alphabet.push(Entry::Hole.word());
        if call.operation == Operation::Compile {
            pad(&mut call.table, TABLE_LIMIT, 0);
        }
    }
    node_word(words::holes(&call.alphabet)[0])
}
