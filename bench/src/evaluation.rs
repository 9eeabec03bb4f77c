//! Evaluation of one full order.

use crate::clock;
use crate::shapes::DEPENDENT;
use second::area::encode;

pub fn run() {
    for inputs in [2, 5, 9] {
        for rows in [4, 16, 64] {
            one(inputs, rows);
        }
    }
}

/// Every input changes.
fn one(inputs: usize, rows: usize) {
    let (_, make) = DEPENDENT[0];
    let area = encode(&make(inputs, rows));
    let (prev, cur) = (vec![b'0'; inputs], vec![b'1'; inputs]);
    let order: Vec<u8> = (1..=inputs as u8).collect();
    clock::line(
        &format!("evaluation, {inputs} inputs, {rows} rows"),
        || bankplover::evaluate(&area, &prev, &cur, b'0', &order),
        || second::evaluation::evaluate(&area, &prev, &cur, b'0', &order),
    );
}
