//! The test that each call on a lent table makes first.

use crate::clock;
use crate::shapes::DEPENDENT;
use second::area::{encode, is_well_formed};

pub fn run() {
    let (_, make) = DEPENDENT[0];
    for inputs in [2, 5, 9] {
        for rows in [4, 16, 64] {
            let area = encode(&make(inputs, rows));
            clock::line(
                &format!("well-formedness, {inputs} inputs, {rows} rows"),
                || bankplover::is_well_formed(&area),
                || is_well_formed(&area),
            );
        }
    }
}
