//! Evaluation of orders: valid calls and faulty ones.

use crate::report::{part, Comparison};
use crate::verified;
use second::compare::evaluation::compare_evaluations;

pub const COMPARISON: Comparison = Comparison {
    name: "evaluation",
    parts: &[part("orders", 12_000, |seed, tables| {
        compare_evaluations(seed, tables, &verified::evaluate)
    })],
};
