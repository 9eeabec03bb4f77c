//! The primitives that the sources print, judged by both sides, and what the sources say of them.

mod figures;

use crate::verified;
use figures::{Claim, Figure, FIGURES};
use second::area::{encode, SIZE};
use second::book::{entry, Verdict};
use second::compare::judging::compare_table;
use second::compare::reading::compare_text;
use second::compare::{same, Mismatch, Outcome, Stats};
use second::evaluation::evaluate;
use second::judge::{fast, Judged, Square};
use second::reading::{find, Found};
use second::table::Table;

pub fn compare(details: bool) -> Outcome {
    let mut stats = Stats::default();
    for figure in &FIGURES {
        stats.add(compare_text(figure.text.as_bytes(), &verified::read)?);
        let table = table(figure.text);
        stats.note(compare_table(0, &table, &verified::judge)?);
        let judged = fast::judge(&table);
        for claim in figure.claims {
            stats.note(hold(figure, &table, &judged.square, claim)?);
        }
        if details {
            println!("published: {}: {}", figure.source, line(&table, judged));
        }
    }
    Ok(stats)
}

fn line(table: &Table, judged: Judged) -> String {
    let pairs = disagreeing(&judged.square);
    let verdict = Verdict::of(table, judged.finding);
    let line = entry::fields(&verdict).expect("a judged table fits the layout");
    let line = String::from_utf8_lossy(&line);
    format!("{line}; pairs that disagree: {pairs}")
}

fn table(text: &str) -> Table {
    match find(text.as_bytes(), 0) {
        Ok(Found::Table(table, _)) => table,
        other => panic!("a printed primitive gives {other:?}"),
    }
}

/// Both sides answer what the source says.
fn hold(
    figure: &Figure,
    table: &Table,
    square: &Square,
    claim: &Claim,
) -> Result<&'static str, Mismatch> {
    let input = || format!("{}, {claim:?}", figure.source);
    match *claim {
        Claim::Agree(i, j, said) => {
            same("a pair", 0, input, &said, &square[i - 1][j - 1])?;
            Ok("pair as said")
        }
        Claim::Output(prev, cur, old, order, said) => {
            let area: [u8; SIZE] = encode(table);
            let (prev, cur) = (prev.as_bytes(), cur.as_bytes());
            let ours = evaluate(&area, prev, cur, old, order);
            let theirs = verified::evaluate(&area, prev, cur, old, order);
            same("evaluation", 0, input, &ours, &theirs)?;
            same("an output", 0, input, &Ok(said), &theirs)?;
            Ok("output as said")
        }
    }
}

fn disagreeing(square: &Square) -> String {
    let pairs = (0..9).flat_map(|i| (i + 1..9).map(move |j| (i, j)));
    let no: Vec<String> = pairs
        .filter(|&(i, j)| !square[i][j])
        .map(|(i, j)| format!("{} {}", i + 1, j + 1))
        .collect();
    no.join(", ")
}
