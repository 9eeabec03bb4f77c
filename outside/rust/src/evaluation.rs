//! The output of an order.

use crate::ffi;
use crate::refusal::told;
use crate::Refusal;

/// Evaluates an order for two vectors and an old output; answers the output's byte.
pub fn evaluate(
    area: &[u8],
    prev: &[u8],
    cur: &[u8],
    old: u8,
    order: &[u8],
) -> Result<u8, Refusal> {
    let mut answer = 0;
    // Safety: each pointer comes with the length of its slice.
    let number = unsafe {
        ffi::bankplover_evaluate(
            area.as_ptr(),
            area.len(),
            prev.as_ptr(),
            prev.len(),
            cur.as_ptr(),
            cur.len(),
            old,
            order.as_ptr(),
            order.len(),
            &mut answer,
        )
    };
    told(number, answer).map(|output| output as u8)
}
