//! Reading and well-formedness.

use super::{cases, same, same_bytes, show, Mismatch, Outcome};
use crate::area::{is_well_formed, SIZE};
use crate::generate::random::Random;
use crate::generate::{areas, texts};
use crate::reading::{read, Answer};

pub type Read<'a> = dyn Fn(&[u8], usize, &mut [u8]) -> Answer + 'a;
pub type WellFormed<'a> = dyn Fn(&[u8]) -> bool + 'a;

/// Answers and the area's final bytes, from areas that hold anything before.
pub fn compare_reading(seed: u64, count: usize, other: &Read) -> Outcome {
    cases(seed, count, |seed, random| {
        let case = texts::case(random);
        let area = any_area(random);
        compare_read(seed, &case.text, case.start, &area, other)
    })
}

/// Reads one text from primitive to primitive, wherever the other one says the next place is.
pub fn compare_text(text: &[u8], other: &Read) -> Outcome {
    let mut stats = super::Stats::default();
    let mut start = 0;
    loop {
        stats.note(compare_read(0, text, start, &[0; SIZE], other)?);
        match read(text, start, &mut [0; SIZE]) {
            Answer::Table(next) => start = next,
            _ => return Ok(stats),
        }
    }
}

/// One call.
pub fn compare_read(
    seed: u64,
    text: &[u8],
    start: usize,
    area: &[u8],
    other: &Read,
) -> Result<String, Mismatch> {
    let (mut ours, mut theirs) = (area.to_vec(), area.to_vec());
    let answer = read(text, start, &mut ours);
    let their_answer = other(text, start, &mut theirs);
    let input = || {
        format!(
            "start {start}, area of {} bytes, text {}",
            area.len(),
            show(text)
        )
    };
    same("reading's answer", seed, input, &answer, &their_answer)?;
    same_bytes("reading's area", seed, input, &ours, &theirs)?;
    Ok(kind(answer))
}

fn kind(answer: Answer) -> String {
    match answer {
        Answer::Table(_) => "table".to_string(),
        Answer::End => "end".to_string(),
        Answer::Refused(refusal) => format!("refused {}", refusal.number),
    }
}

fn any_area(random: &mut Random) -> Vec<u8> {
    let size = match random.below(40) {
        0 => *random.pick(&[0, 1, SIZE - 1, SIZE + 1]),
        _ => SIZE,
    };
    (0..size).map(|_| random.byte()).collect()
}

pub fn compare_well_formed(seed: u64, count: usize, other: &WellFormed) -> Outcome {
    cases(seed, count, |seed, random| {
        let area = areas::area(random);
        let ours = is_well_formed(&area);
        same(
            "well-formedness",
            seed,
            || show(&area),
            &ours,
            &other(&area),
        )?;
        Ok(ours.to_string())
    })
}
