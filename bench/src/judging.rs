//! Judging tables of all sizes, independent and dependent.

use crate::clock;
use crate::shapes::{DEPENDENT, INDEPENDENT};
use second::area::{encode, is_well_formed};
use second::judge::{judge, Finding};

pub fn run() {
    for inputs in [2, 3, 5, 7, 9] {
        for rows in [4, 16, 64] {
            for (name, make) in INDEPENDENT.into_iter().chain(DEPENDENT) {
                let table = make(inputs, rows);
                if table.rows.len() == rows {
                    one(
                        &format!("{inputs} inputs, {rows} rows, {name}"),
                        &encode(&table),
                    );
                }
            }
        }
    }
}

fn one(what: &str, area: &[u8]) {
    assert!(is_well_formed(area), "{what}");
    let judged = judge(area).expect("it is well formed");
    let letter = match judged.finding {
        Finding::Independent => 'I',
        Finding::Dependent(_) => 'D',
    };
    clock::line(
        &format!("judging, {what}, {letter}"),
        || bankplover::judge(area),
        || judge(area),
    );
    clock::line(
        &format!("square, {what}, {letter}"),
        || bankplover::square(area),
        || judge(area),
    );
}
