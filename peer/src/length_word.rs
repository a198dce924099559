//! Document 02's U1: a table carries its length. Its second word says how many words it has, head and length word among
//! them; whatever follows these in a slice is no part of it.

use crate::limits::TABLE_LIMIT;
use crate::words::TableWord;

/// A table has a head and a length word, if nothing else.
pub const LEAST_WORDS: usize = 2;

/// A table's words: those of document 01, with their length word as the second.
pub fn with_length_word(table: &[TableWord]) -> Vec<u32> {
    let mut words: Vec<u32> = table.iter().map(|word| word.word()).collect();
    words.insert(1, TableWord::Length(words.len() + 1).word());
    words
}

/// Writes the length word of a slice that has a second word.
pub fn say(slice: &mut [u32], count: usize) {
    if let Some(word) = slice.get_mut(1) {
        *word = TableWord::Length(count).word();
    }
}

/// The table at the front of a slice, which may be longer than any table; None where the length word is missing, or
/// says less than the least, more than the most, or more than the slice has.
pub fn table_in(slice: &[u32]) -> Option<&[u32]> {
    let TableWord::Length(count) = TableWord::read(*slice.get(1)?)? else {
        return None;
    };
    if !(LEAST_WORDS..=TABLE_LIMIT).contains(&count) {
        return None;
    }
    slice.get(..count)
}
