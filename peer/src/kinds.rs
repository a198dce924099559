//! Document 01's kinds of words and document 02's, each number once. The kind is in the highest bits of a word, its fields
//! are below.

/// An alphabet entry.
pub const ENTRY: u32 = 1;

/// The bit of an alphabet entry by which it is a hole (document 02, U8).
pub const HOLE: u32 = 1 << 8;

// The words of an expression.
pub const SYMBOL: u32 = 2;
pub const EMPTY: u32 = 3;
pub const UNION: u32 = 4;
pub const PRODUCT: u32 = 5;
pub const CLOSURE: u32 = 6;

/// A node of a tree.
pub const NODE: u32 = 7;

// The words of a table. A transition is followed by its child states.
pub const HEAD: u32 = 8;
pub const TRANSITION: u32 = 9;
pub const EPSILON: u32 = 10;
pub const CHILD: u32 = 11;

/// How many words a table has, as its second word (document 02, U1).
pub const LENGTH: u32 = 12;

/// An expression's word for every tree over the alphabet (document 02, U7).
pub const ANYTHING: u32 = 14;

/// How many bits the fields have together.
pub const FIELD_BITS: u32 = 28;

/// How many bits a state has, which is the lowest field of a table word but for the length.
pub const STATE_BITS: u32 = 10;

/// How many bits a table's word count has, which is the only field of its word.
pub const LENGTH_BITS: u32 = 12;

#[inline]
pub fn kind(word: u32) -> u32 {
    word >> FIELD_BITS
}

/// The word of a kind whose fields are zero.
pub const fn word(kind: u32) -> u32 {
    kind << FIELD_BITS
}

/// The word of a kind with a symbol (or an arity).
pub fn symbol_word(kind: u32, symbol: usize) -> u32 {
    word(kind) + symbol as u32
}

/// The table word of a kind with a state, and another field above it.
pub fn table_word(kind: u32, above: usize, state: usize) -> u32 {
    word(kind) + ((above as u32) << STATE_BITS) + state as u32
}

/// The symbol (or the arity) in a word outside a table.
#[inline]
pub fn symbol(word: u32) -> usize {
    (word & 0xff) as usize
}

/// The state in a table word.
#[inline]
pub fn state(word: u32) -> usize {
    (word & ((1 << STATE_BITS) - 1)) as usize
}

/// The word count in a length word.
#[inline]
pub fn length(word: u32) -> usize {
    (word & ((1 << LENGTH_BITS) - 1)) as usize
}

/// The field above the state in a table word, of so many bits.
#[inline]
pub fn above_state(word: u32, bits: u32) -> usize {
    (word >> STATE_BITS & ((1 << bits) - 1)) as usize
}
