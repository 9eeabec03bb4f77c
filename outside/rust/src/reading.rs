//! Reading one primitive, and which areas are well formed.

use crate::ffi;
use crate::refusal::told;
use crate::Refusal;

#[derive(Clone, Copy, PartialEq, Eq, Debug)]
pub enum Reading {
    /// A table stands in the area; the place is the one after `endprimitive`.
    Table(usize),
    /// Only blanks and comments remained; the area is as it was.
    End,
}

/// Reads one primitive from `start` on into an area of [`crate::AREA`] bytes.
pub fn read(text: &[u8], start: usize, area: &mut [u8]) -> Result<Reading, Refusal> {
    let mut answer = 0;
    // Safety: each pointer comes with the length of its slice.
    let number = unsafe {
        ffi::bankplover_read(
            text.as_ptr(),
            text.len(),
            start,
            area.as_mut_ptr(),
            area.len(),
            &mut answer,
        )
    };
    if number == ffi::END {
        return Ok(Reading::End);
    }
    told(number, answer).map(Reading::Table)
}

/// Whether reading some text could have given these bytes.
pub fn is_well_formed(area: &[u8]) -> bool {
    // Safety: the pointer comes with the length of its slice.
    unsafe { ffi::bankplover_well_formed(area.as_ptr(), area.len()) }
}
