//! An unrelated matcher for document 01's trees, and its comparison with the proved library.
//!
//! The model is written from document 01 and document 02's U1, U6, U7, U8 and U10 alone: `limits` and `kinds` have
//! their numbers, and `refusals` every refusal in order; `language` decides membership by substitution,
//! without an automaton; `automaton`, `marks` and `exchange` recompute the words that the operations write,
//! `totals` counts for the record, `length_word` says where a table in a slice ends, and `marklist` has the
//! text that the program prints. `compare` makes each call of the model and of the library, `driver` runs the
//! program, and `cases` has the inputs. `guard` and `mapping` show what a call does outside its slices.

pub mod automaton;
pub mod call;
pub mod cases;
pub mod chance;
pub mod compare;
pub mod draw;
pub mod driver;
pub mod exchange;
pub mod generate;
pub mod guard;
pub mod kinds;
pub mod language;
pub mod length_word;
pub mod library;
pub mod limits;
pub mod mapping;
pub mod marklist;
pub mod marks;
pub mod model;
pub mod postfix;
pub mod refusals;
pub mod totals;
pub mod words;
