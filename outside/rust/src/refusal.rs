//! Refusals: a number and a place.

use std::error::Error;
use std::fmt;

#[derive(Clone, Copy, PartialEq, Eq, Debug)]
pub struct Refusal {
    pub number: u8,
    pub place: usize,
}

impl fmt::Display for Refusal {
    fn fmt(&self, out: &mut fmt::Formatter<'_>) -> fmt::Result {
        write!(out, "refused {} at {}", self.number, self.place)
    }
}

impl Error for Refusal {}

/// What a call tells through `answer`, or its refusal at that place.
pub(crate) fn told(number: u8, answer: usize) -> Result<usize, Refusal> {
    match number {
        0 => Ok(answer),
        _ => Err(Refusal {
            number,
            place: answer,
        }),
    }
}
