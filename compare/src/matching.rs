//! Every level with every value, every symbol with every change, directly and through evaluation.

use crate::report::{part, Comparison};
use crate::verified;
use bankplover::{change_matches, level_matches};
use second::compare::matching::{compare_matching, compare_matching_by_tables};

pub const COMPARISON: Comparison = Comparison {
    name: "matching",
    parts: &[
        part("directly", 0, |_, _| {
            compare_matching(&level_matches, &change_matches)
        }),
        part("by-tables", 0, |_, _| {
            compare_matching_by_tables(&verified::evaluate)
        }),
    ],
};
