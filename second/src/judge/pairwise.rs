//! The pairwise search, word for word in document 01's sequence.

use super::all_orders::vectors;
use super::{pair_first, pairs, Disagreement, Judged};
use crate::evaluation::along;
use crate::table::Table;
use crate::value::Value;

pub fn judge(table: &Table) -> Judged {
    let mut judged = Judged::independent();
    for (i, j) in pairs(table.inputs) {
        if let Some(disagreement) = first_of_pair(table, i, j) {
            judged.note(i, j, disagreement.witness());
        }
    }
    judged
}

fn first_of_pair(table: &Table, i: usize, j: usize) -> Option<Disagreement> {
    let orders = [
        pair_first(table.inputs, i, j),
        pair_first(table.inputs, j, i),
    ];
    let all = vectors(table.inputs);
    all.iter()
        .find_map(|previous| first_of_vector(table, i, j, previous, &orders))
}

fn first_of_vector(
    table: &Table,
    i: usize,
    j: usize,
    previous: &[Value],
    orders: &[Vec<u8>; 2],
) -> Option<Disagreement> {
    let others = |k: usize| {
        Value::ALL
            .into_iter()
            .filter(move |&value| value != previous[k])
    };
    let moves = others(i).flat_map(|c| others(j).map(move |d| (c, d)));
    let cases = moves.flat_map(|(c, d)| Value::ALL.into_iter().map(move |old| (c, d, old)));
    cases.into_iter().find_map(|(c, d, old)| {
        let mut current = previous.to_vec();
        current[i] = c;
        current[j] = d;
        let outputs = [0, 1].map(|k: usize| along(table, previous, &current, old, &orders[k]));
        let previous = previous.to_vec();
        (outputs[0] != outputs[1]).then_some(Disagreement {
            i,
            j,
            previous,
            current,
            old,
            outputs,
        })
    })
}
