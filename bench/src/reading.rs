//! Reading texts of 64 KiB from end to end.

use crate::clock;
use crate::shapes::{Make, INDEPENDENT};
use bankplover::Reading;
use second::area::SIZE;
use second::limits::TEXT_BYTES;
use second::print;
use second::reading::Answer;

pub fn run() {
    let (_, combinational) = INDEPENDENT[0];
    let (_, same_steps) = INDEPENDENT[2];
    line(
        "one primitive of one row among comments",
        &padded(&many(combinational, 1, 1, 1)),
    );
    line("one primitive of 64 rows among comments", &commented());
    line(
        "primitives of 2 inputs and 4 rows",
        &many(combinational, 2, 4, usize::MAX),
    );
    line(
        "primitives of 5 inputs and 16 rows",
        &many(same_steps, 5, 16, usize::MAX),
    );
    line(
        "primitives of 9 inputs and 64 rows",
        &many(same_steps, 9, 64, usize::MAX),
    );
}

fn line(what: &str, text: &[u8]) {
    let found = verified(text);
    assert_eq!(found, second(text), "both read the same");
    let what = format!("reading {} bytes, {what}: {found}", text.len());
    clock::line(&what, || verified(text), || second(text));
}

/// The number of primitives up to the end.
fn verified(text: &[u8]) -> usize {
    let (mut area, mut place, mut found) = ([0; SIZE], 0, 0);
    while let Ok(Reading::Table(next)) = bankplover::read(text, place, &mut area) {
        (place, found) = (next, found + 1);
    }
    found
}

fn second(text: &[u8]) -> usize {
    let (mut area, mut place, mut found) = ([0; SIZE], 0, 0);
    while let Answer::Table(next) = second::reading::read(text, place, &mut area) {
        (place, found) = (next, found + 1);
    }
    found
}

/// As many as fit, up to `most`.
fn many(make: Make, inputs: usize, rows: usize, most: usize) -> Vec<u8> {
    let one = print::text(&make(inputs, rows));
    let count = (TEXT_BYTES / one.len()).min(most);
    one.repeat(count)
}

/// Comments and blanks in front, up to the longest text.
fn padded(text: &[u8]) -> Vec<u8> {
    let mut padded = Vec::new();
    while padded.len() + text.len() + 40 < TEXT_BYTES {
        padded.extend(b"/* a comment */ // and another\n\t\t\n");
    }
    padded.extend(text);
    padded.resize(TEXT_BYTES, b' ');
    padded
}

/// A comment at the end of each line.
fn commented() -> Vec<u8> {
    let (_, make) = INDEPENDENT[2];
    let text = String::from_utf8_lossy(&print::text(&make(9, 64))).into_owned();
    let room = (TEXT_BYTES - text.len()) / text.matches(";\n").count();
    let comment = format!(";//{}\n", "-".repeat(room - 2));
    let mut text = text.replace(";\n", &comment).into_bytes();
    text.resize(TEXT_BYTES, b' ');
    text
}
