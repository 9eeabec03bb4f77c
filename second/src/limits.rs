//! The numbers of document 01, each stated once.

pub const TEXT_BYTES: usize = 65_536;
pub const BOOK_BYTES: usize = 65_536;
pub const INPUTS: usize = 9;
pub const ROWS: usize = 64;
pub const NAME_BYTES: usize = 32;
