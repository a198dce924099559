//! The exported functions of the linked library behind safe ones.

use crate::call::{Answer, Call, Matcher, Operation};
use crate::guard::Guarded;
use crate::mapping::{comes_to_its_end, Mapped};
use crate::totals::Totals;
use std::mem::size_of;
use std::ptr;

pub struct Library;

impl Matcher for Library {
    /// Each slice is lent from the middle of a longer run of words, so that a write outside it is seen.
    fn answer(&mut self, call: &Call) -> Answer {
        let mut answer = Answer::unwritten(0, call);
        let mut guarded = call.slices().map(|(_, words)| Guarded::around(words));
        answer.number = call_on(
            call.operation,
            guarded.each_mut().map(Guarded::slice),
            call.count,
            call.node,
            &mut answer.values,
        );
        answer.surroundings_kept = guarded.iter().all(Guarded::surroundings_kept);
        for (slice, guarded) in answer.after.slices_mut().into_iter().zip(&guarded) {
            slice.copy_from_slice(&guarded.content());
        }
        answer
    }

    /// Each slice is lent from the end of a mapping, so that a touch of anything behind it is seen.
    fn answer_said(&mut self, call: &Call, said: usize) -> Answer {
        let mut answer = Answer::unwritten(0, call);
        let mapped = call.slices().map(|(_, words)| Mapped::holding(words));
        let mut lent = mapped.each_ref().map(|words| Lent {
            first: words.pointer(),
            length: words.count(),
        });
        lent[TABLE].length = said;
        // The number and then the values.
        let answered = Mapped::holding(&[answer.number, answer.values[0], answer.values[1]]);
        let [number, first, second] = [0, 1, 2].map(|place| answered.pointer().wrapping_add(place));
        // The words that are lent and not there are what is tried: they are not to be touched.
        answer.ended = comes_to_its_end(|| unsafe {
            number.write(call_exported(
                call.operation,
                lent,
                call.count,
                call.node,
                [first, second],
            ));
        });
        let [number, first, second] = answered.content()[..] else {
            unreachable!("three words");
        };
        answer.number = number;
        answer.values = [first, second];
        for (slice, mapped) in answer.after.slices_mut().into_iter().zip(&mapped) {
            slice.copy_from_slice(&mapped.content());
        }
        answer
    }
}

/// Performs a call on its own slices and answers its number: for timing, since nothing is copied.
pub fn perform(call: &mut Call, values: &mut [u32; 2]) -> u32 {
    let (operation, count, node) = (call.operation, call.count, call.node);
    call_on(operation, call.slices_mut(), count, node, values)
}

/// Calls the exported function of an operation with the slices of a call.
fn call_on(
    operation: Operation,
    slices: [&mut [u32]; 8],
    count: usize,
    element: usize,
    values: &mut [u32; 2],
) -> u32 {
    let lent = slices.map(|words| Lent {
        first: words.as_mut_ptr(),
        length: words.len(),
    });
    // Each pointer comes from a reference that lives through the call, with that slice's own length, and no two overlap:
    // this is all that the exported functions ask of a caller.
    unsafe {
        call_exported(
            operation,
            lent,
            count,
            element,
            values.each_mut().map(ptr::from_mut),
        )
    }
}

// A slice is a pointer and then a length.
extern "C" {
    fn haqbylur_compile(
        alphabet: *const u32,
        alphabet_length: usize,
        rule: *const u32,
        rule_length: usize,
        table: *mut u32,
        table_length: usize,
        words: *mut u32,
    ) -> u32;

    fn haqbylur_run(
        alphabet: *const u32,
        alphabet_length: usize,
        table: *const u32,
        table_length: usize,
        chapter: *const u32,
        chapter_length: usize,
        marks: *mut u32,
        marks_length: usize,
        elements: *mut u32,
        cells: *mut u32,
        totals: *mut Record,
    ) -> u32;

    fn haqbylur_list(
        alphabet: *const u32,
        alphabet_length: usize,
        table: *const u32,
        table_length: usize,
        count: usize,
        marks: *const u32,
        marks_length: usize,
        list: *mut u32,
        list_length: usize,
        hits: *mut u32,
    ) -> u32;

    fn haqbylur_exchange(
        alphabet: *const u32,
        alphabet_length: usize,
        table: *const u32,
        table_length: usize,
        chapter: *mut u32,
        chapter_length: usize,
        count: usize,
        marks: *mut u32,
        marks_length: usize,
        element: usize,
        replacement: *const u32,
        replacement_length: usize,
        elements: *mut u32,
        worked_out: *mut u32,
        totals: *mut Record,
    ) -> u32;
}

/// The record as the exported functions take it.
#[repr(C)]
struct Record {
    elements: u32,
    hits: u32,
    cells: u32,
}

const _: () = assert!(size_of::<Record>() == size_of::<Totals>());

/// A slice as the exported functions take it.
#[derive(Clone, Copy)]
struct Lent {
    first: *mut u32,
    length: usize,
}

/// Where `Call::slices` has the table.
const TABLE: usize = 2;

/// Calls the exported function of an operation with slices in the order of `Call::slices`. The pointers are aligned, what
/// the call touches is there, and no two slices overlap. The record is a slice of its three words, where it is lent.
unsafe fn call_exported(
    operation: Operation,
    slices: [Lent; 8],
    count: usize,
    element: usize,
    [first, second]: [*mut u32; 2],
) -> u32 {
    let [alphabet, rule, table, chapter, marks, replacement, list, totals] = slices;
    let record = totals.first.cast::<Record>();
    match operation {
        Operation::Compile => haqbylur_compile(
            alphabet.first,
            alphabet.length,
            rule.first,
            rule.length,
            table.first,
            table.length,
            first,
        ),
        Operation::Run => haqbylur_run(
            alphabet.first,
            alphabet.length,
            table.first,
            table.length,
            chapter.first,
            chapter.length,
            marks.first,
            marks.length,
            first,
            second,
            record,
        ),
        Operation::List => haqbylur_list(
            alphabet.first,
            alphabet.length,
            table.first,
            table.length,
            count,
            marks.first,
            marks.length,
            list.first,
            list.length,
            first,
        ),
        Operation::Exchange => haqbylur_exchange(
            alphabet.first,
            alphabet.length,
            table.first,
            table.length,
            chapter.first,
            chapter.length,
            count,
            marks.first,
            marks.length,
            element,
            replacement.first,
            replacement.length,
            first,
            second,
            record,
        ),
    }
}
