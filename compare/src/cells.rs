//! Published cell libraries: their primitives through reading, judging and the lister.

use crate::lister::listed;
use crate::verified;
use second::compare::reading::compare_text;
use second::compare::{judging, same_bytes, show, Outcome, Stats};
use second::lister::list;
use second::reading::{find, Found};
use std::{fs, io};

/// Modules and what else surrounds the primitives is dropped. The lister's program may be left away.
pub fn compare(files: &[&str], program: Option<&[&str]>, details: bool) -> io::Result<Outcome> {
    let texts: io::Result<Vec<Vec<u8>>> = files.iter().map(fs::read).collect();
    let mut stats = Stats::default();
    for (file, text) in files.iter().zip(texts?) {
        let primitives = primitives(&text);
        if primitives.is_empty() {
            return Err(io::Error::other(format!("{file} has no primitive")));
        }
        let whole = primitives.join(&b'\n');
        for part in primitives.iter().chain([&whole]) {
            match one(part, program) {
                Ok(more) => stats.add(more),
                Err(mismatch) => return Ok(Err(mismatch)),
            }
        }
        if details {
            println!("cells: {file}: {}", answers(&primitives));
        }
    }
    Ok(Ok(stats))
}

fn one(text: &[u8], program: Option<&[&str]>) -> Outcome {
    let mut stats = compare_text(text, &verified::read)?;
    if let Ok(Found::Table(table, _)) = find(text, 0) {
        stats.note(judging::compare_table(0, &table, &verified::judge)?);
    }
    if let Some(program) = program {
        let ours = list(text);
        let theirs = listed(program, text).unwrap_or_else(|error| error.to_string().into_bytes());
        same_bytes("the lister", 0, || show(text), &ours, &theirs)?;
        stats.note("listed alike");
    }
    Ok(stats)
}

/// From each `primitive` at the start of a line to the next `endprimitive`.
fn primitives(text: &[u8]) -> Vec<Vec<u8>> {
    let text = String::from_utf8_lossy(text);
    let mut found = Vec::new();
    let mut rest = &text[..];
    while let Some(start) = rest.find("\nprimitive ") {
        let end = rest[start..]
            .find("endprimitive")
            .map_or(rest.len(), |at| start + at + "endprimitive".len());
        found.push(rest.as_bytes()[start + 1..end].to_vec());
        rest = &rest[end..];
    }
    found
}

/// What the lister says of each primitive alone.
fn answers(primitives: &[Vec<u8>]) -> String {
    let answers: Vec<String> = primitives.iter().map(|text| answer(text)).collect();
    answers.join("; ")
}

fn answer(text: &[u8]) -> String {
    let line = String::from_utf8_lossy(&list(text)).trim_end().to_string();
    if !line.starts_with("refused") {
        return line;
    }
    let text = String::from_utf8_lossy(text);
    let name: String = text["primitive ".len()..]
        .chars()
        .take_while(|letter| letter.is_alphanumeric() || *letter == '_')
        .collect();
    format!("{name} {line}")
}
