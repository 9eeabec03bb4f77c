//! The comparisons: this implementation agrees with itself, and impostors are found out.

use second::area::is_well_formed;
use second::book::{append, fetch, open, Opened};
use second::compare::{book, evaluation, judging, listing, matching, reading, Mismatch, Outcome};
use second::evaluation::evaluate;
use second::judge::{judge, Finding, Judged};
use second::lister::list;
use second::reading::{read, Answer};
use second::symbol::{Edge, Level, Symbol};
use second::value::Value;
use second::Refusal;

fn agreed(outcome: Outcome, answers: &[&str]) {
    let stats = outcome.unwrap_or_else(|mismatch| panic!("{mismatch}"));
    for answer in answers {
        assert!(stats.count(answer) > 3, "{answer}: {stats:?}");
    }
}

fn found_out(outcome: Outcome) -> Mismatch {
    outcome.expect_err("an impostor is found out")
}

#[test]
fn reading_and_well_formedness() {
    let numbers: Vec<String> = (1..=10).map(|number| format!("refused {number}")).collect();
    let mut answers: Vec<&str> = numbers.iter().map(String::as_str).collect();
    answers.extend(["table", "end"]);
    agreed(reading::compare_reading(1, 4000, &read), &answers);
    agreed(
        reading::compare_well_formed(1, 1000, &is_well_formed),
        &["true", "false"],
    );
    let refuses = |_: &[u8], _: usize, _: &mut [u8]| Answer::Refused(Refusal::new(3, 0));
    found_out(reading::compare_reading(1, 100, &refuses));
    let leaves_rests = |text: &[u8], start: usize, area: &mut [u8]| {
        let last = area.last().copied();
        let answer = read(text, start, area);
        if let (Some(place), Some(byte)) = (area.last_mut(), last) {
            *place = byte;
        }
        answer
    };
    let mismatch = found_out(reading::compare_reading(1, 1000, &leaves_rests));
    assert_eq!(mismatch.call, "reading's area");
    assert_eq!(
        reading::compare_reading(mismatch.seed, 1, &leaves_rests),
        Err(mismatch)
    );
    found_out(reading::compare_well_formed(1, 100, &|area| {
        area.len() == 1317
    }));
}

#[test]
fn a_given_text() {
    let text = b"primitive p(q,a);output q;input a;table 0:0;endtable endprimitive ;";
    let stats = reading::compare_text(text, &read).unwrap();
    assert_eq!(
        (stats.count("table"), stats.count("refused 3"), stats.cases),
        (1, 1, 2)
    );
}

fn level(symbol: u8, value: u8) -> bool {
    Level::from_byte(symbol)
        .unwrap()
        .matches(Value::from_byte(value).unwrap())
}

fn edge(symbol: [u8; 2], from: u8, to: u8) -> bool {
    let (from, to) = (
        Value::from_byte(from).unwrap(),
        Value::from_byte(to).unwrap(),
    );
    matches!(Symbol::from_bytes(symbol), Some(Symbol::Edge(edge)) if edge.matches(from, to))
}

#[test]
fn matching() {
    // Five levels by three values; five letters and 22 pairs by nine changes.
    let stats = matching::compare_matching(&level, &edge).unwrap();
    assert_eq!(stats.cases, 5 * 3 + 27 * 9);
    agreed(
        matching::compare_matching_by_tables(&evaluate),
        &["0", "1", "x"],
    );
    let x_is_either = |symbol: u8, value: u8| value == b'x' || level(symbol, value);
    found_out(matching::compare_matching(&x_is_either, &edge));
    let unchanged_too = |symbol: [u8; 2], from: u8, to: u8| match Symbol::from_bytes(symbol) {
        Some(Symbol::Edge(Edge::Star)) => true,
        _ => edge(symbol, from, to),
    };
    found_out(matching::compare_matching(&level, &unchanged_too));
}

#[test]
fn evaluation() {
    let answers = ["0", "1", "x", "refused 10", "refused 11", "refused 12"];
    agreed(evaluation::compare_evaluation(1, 4000, &evaluate), &answers);
    let at_new_values = |area: &[u8], prev: &[u8], cur: &[u8], old: u8, order: &[u8]| {
        let moved = match order.first() {
            Some(&first) if prev.len() == cur.len() => {
                let mut moved = cur.to_vec();
                if let Some(place) = moved.get_mut(usize::from(first).wrapping_sub(1)) {
                    *place = prev[usize::from(first) - 1];
                }
                moved
            }
            _ => prev.to_vec(),
        };
        evaluate(area, &moved, cur, old, order)
    };
    found_out(evaluation::compare_evaluation(1, 4000, &at_new_values));
}

#[test]
fn judging() {
    agreed(
        judging::compare_judging(1, 250, &judge),
        &["I", "D", "refused 10"],
    );
    agreed(judging::compare_judging_large(1, 12, &judge), &["I"]);
    let yes = Judged {
        finding: Finding::Independent,
        square: [[true; 9]; 9],
    };
    found_out(judging::compare_judging(1, 100, &|_| Ok(yes.clone())));
    let mismatch = found_out(judging::compare_judging(1, 400, &first_pair_only));
    assert_eq!(mismatch.call, "judging");
}

/// Judges the first pair and assumes the rest.
fn first_pair_only(area: &[u8]) -> Result<Judged, Refusal> {
    let judged = judge(area)?;
    if !judged.square[0][1] {
        return Ok(judged);
    }
    Ok(Judged {
        finding: Finding::Independent,
        square: [[true; 9]; 9],
    })
}

#[test]
fn listing() {
    agreed(
        listing::compare_listing(1, 300, &list),
        &["listed", "refused"],
    );
    found_out(listing::compare_listing(1, 100, &|_| Vec::new()));
}

#[test]
fn the_book() {
    agreed(
        book::compare_opening(1, 1000, &open),
        &["opened", "refused 13"],
    );
    let answers = ["appended", "refused 13", "refused 14", "refused 15"];
    agreed(book::compare_append(1, 1500, &append), &answers);
    agreed(
        book::compare_fetch(1, 1000, &fetch),
        &["fetched", "refused 13", "refused 16"],
    );
    agreed(book::compare_cuts(1, 500, &open), &["opened"]);
    agreed(book::compare_every_cut(&open), &["opened"]);
    agreed(
        book::compare_runs(1, 500, (&open, &append, &fetch)),
        &["run"],
    );
}

#[test]
fn impostors_of_the_book() {
    let no_torn_end = |buffer: &[u8], stated: usize| match open(buffer, stated) {
        Ok(Opened {
            torn: 1.., good, ..
        }) => Err(Refusal::new(13, good)),
        other => other,
    };
    found_out(book::compare_opening(1, 200, &no_torn_end));
    found_out(book::compare_cuts(1, 200, &no_torn_end));
    found_out(book::compare_every_cut(&no_torn_end));
    let invents = |buffer: &[u8], stated: usize| {
        open(buffer, stated).map(|opened| Opened {
            count: opened.count + 1,
            ..opened
        })
    };
    found_out(book::compare_opening(1, 200, &invents));
    let idle = |_: &mut [u8], stated: usize, _: &second::book::Verdict| Ok(stated);
    found_out(book::compare_append(1, 200, &idle));
    found_out(book::compare_runs(1, 20, (&open, &idle, &fetch)));
    let refuses = |_: &mut [u8], _: usize, _: &second::book::Verdict| Err(Refusal::new(15, 0));
    found_out(book::compare_append(1, 200, &refuses));
    found_out(book::compare_runs(1, 20, (&open, &refuses, &fetch)));
    let always_first = |buffer: &[u8], stated: usize, k: usize| fetch(buffer, stated, k.min(1));
    found_out(book::compare_fetch(1, 200, &always_first));
}
