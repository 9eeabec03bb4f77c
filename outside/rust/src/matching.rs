//! What levels and symbols match.

use crate::ffi;

/// A level, by its small letter, matches a value.
pub fn level_matches(level: u8, value: u8) -> bool {
    // Safety: the call takes numbers only.
    unsafe { ffi::bankplover_level_matches(level, value) }
}

/// A symbol, by the two bytes of a column, matches a change.
pub fn change_matches(symbol: [u8; 2], from: u8, to: u8) -> bool {
    // Safety: the call takes numbers only.
    unsafe { ffi::bankplover_change_matches(symbol[0], symbol[1], from, to) }
}
