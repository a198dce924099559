//! Document 01's limits and document 02's, each once: the most there may be of everything.

/// Words of an alphabet.
pub const SYMBOL_LIMIT: usize = 64;

/// Constants of an alphabet.
pub const CONSTANT_LIMIT: usize = 16;

/// Children of a symbol (document 01: its rank).
pub const ARITY_LIMIT: usize = 4;

/// Words of an expression.
pub const EXPRESSION_LIMIT: usize = 64;

/// States of a table.
pub const STATE_LIMIT: usize = 1024;

/// Words of a table.
pub const TABLE_LIMIT: usize = 2048;

/// Words of the compiled table of a rule without `anything`: none takes more, and one takes as many (document 02, U1 and
/// U7). Document 01 has one less, without the length word.
pub const COMPILED_LIMIT: usize = 1148;

/// Nodes of a tree.
pub const NODE_LIMIT: usize = 4096;

/// Nodes of a tree one above the other, its height (document 02, U6).
pub const HEIGHT_LIMIT: usize = 512;

/// Nodes of a tree that the program `marklist` takes. It is below the greatest height, so the program never says 24.
pub const PROGRAM_LIMIT: usize = 256;

/// Each of a chapter's totals after an exchange (document 02, U10). The largest chapter with the most states, all of them
/// marked everywhere, has as many cells.
pub const TOTAL_LIMIT: u32 = 4_194_304;

/// Words of a state set.
pub const SET_LIMIT: usize = STATE_LIMIT.div_ceil(32);
