//! Order verdicts for Verilog's user-defined primitives: safe calls of the verified library.
//!
//! Every call takes whatever it is handed and ends; nothing is checked on this side of it. A refusal
//! gives the number of docs/CALLS.md and a place, and changes no byte of what was lent.
//!
//! Values are the bytes `0`, `1` and `x`; orders are lists of input numbers, counted from 1.

mod book;
mod evaluation;
mod ffi;
mod judging;
mod matching;
mod reading;
mod refusal;
mod witness;

pub use book::{append, append_numbers, fetch, open, Entry, Opened};
pub use evaluation::evaluate;
pub use judging::{judge, square, Finding, Square};
pub use matching::{change_matches, level_matches};
pub use reading::{is_well_formed, read, Reading};
pub use refusal::Refusal;
pub use witness::{Numbers, Witness};

/// Bytes of a table's area.
pub const AREA: usize = 1317;
/// Most inputs of a primitive.
pub const INPUTS: usize = 9;
