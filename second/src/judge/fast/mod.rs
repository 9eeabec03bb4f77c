//! The fast judge: row masks, then a step table for each input over all vectors, then the scan.

mod masks;
mod scan;
mod steps;

use super::{pairs, Finding, Judged};
use crate::table::Table;
use masks::Masks;
use steps::Steps;

/// Finding and whole square.
pub fn judge(table: &Table) -> Judged {
    let steps = Steps::new(&Masks::new(table), table.inputs);
    let mut judged = Judged::independent();
    for (i, j) in pairs(table.inputs) {
        if let Some(disagreement) = scan::first_of_pair(&steps, i, j) {
            judged.note(i, j, disagreement.witness());
        }
    }
    judged
}

/// The finding alone, which needs no pair after the first that disagrees.
pub fn finding(table: &Table) -> Finding {
    let steps = Steps::new(&Masks::new(table), table.inputs);
    let first = pairs(table.inputs).find_map(|(i, j)| scan::first_of_pair(&steps, i, j));
    first.map_or(Finding::Independent, |disagreement| {
        Finding::Dependent(disagreement.witness())
    })
}
