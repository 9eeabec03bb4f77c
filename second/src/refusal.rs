//! Refusals: a number of document 01 and a place.

use std::fmt;

#[derive(Clone, Copy, PartialEq, Eq, Debug)]
pub struct Refusal {
    pub number: u8,
    pub place: usize,
}

pub const TEXT_TOO_LONG: u8 = 1;
pub const COMMENT_WITHOUT_END: u8 = 2;
pub const NOT_EXPECTED: u8 = 3;
pub const NAME_TOO_LONG: u8 = 4;
pub const PORTS: u8 = 5;
pub const TOO_MANY: u8 = 6;
pub const COLUMNS: u8 = 7;
pub const SYMBOL: u8 = 8;
pub const CONTRADICTION: u8 = 9;
pub const NOT_WELL_FORMED: u8 = 10;
pub const VALUES: u8 = 11;
pub const ORDER: u8 = 12;
pub const NOT_A_BOOK: u8 = 13;
pub const VERDICT: u8 = 14;
pub const NO_ROOM: u8 = 15;
pub const NO_ENTRY: u8 = 16;

impl Refusal {
    pub fn new(number: u8, place: usize) -> Refusal {
        Refusal { number, place }
    }
}

impl fmt::Display for Refusal {
    fn fmt(&self, out: &mut fmt::Formatter<'_>) -> fmt::Result {
        write!(out, "refused {} at {}", self.number, self.place)
    }
}
