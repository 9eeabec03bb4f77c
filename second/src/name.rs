//! Which bytes make a name and which words are none.

use crate::limits::NAME_BYTES;

const NO_NAMES: [&[u8]; 8] = [
    b"primitive",
    b"output",
    b"input",
    b"reg",
    b"initial",
    b"table",
    b"endtable",
    b"endprimitive",
];

pub fn starts_name(byte: u8) -> bool {
    byte.is_ascii_alphabetic() || byte == b'_'
}

pub fn is_name_byte(byte: u8) -> bool {
    starts_name(byte) || byte.is_ascii_digit() || byte == b'$'
}

pub fn is_keyword(word: &[u8]) -> bool {
    NO_NAMES.contains(&word)
}

pub fn keywords() -> &'static [&'static [u8]] {
    &NO_NAMES
}

/// A whole name: its form, its length, and not one of the eight words.
pub fn is_name(word: &[u8]) -> bool {
    let formed = word.first().is_some_and(|&byte| starts_name(byte));
    formed
        && word.len() <= NAME_BYTES
        && word.iter().all(|&byte| is_name_byte(byte))
        && !is_keyword(word)
}
