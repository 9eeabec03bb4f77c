//! The book: opening, append, fetch.

pub mod cut;
pub mod entry;

use crate::limits::BOOK_BYTES;
use crate::refusal::{Refusal, NOT_A_BOOK, NO_ENTRY, NO_ROOM, VERDICT};
pub use entry::Verdict;

#[derive(Clone, Copy, PartialEq, Eq, Debug)]
pub struct Opened {
    pub count: usize,
    pub good: usize,
    pub torn: usize,
}

pub fn open(buffer: &[u8], stated: usize) -> Result<Opened, Refusal> {
    let verdicts = verdicts(buffer, stated)?;
    let good = good_length(&buffer[..stated]);
    Ok(Opened {
        count: verdicts.len(),
        good,
        torn: stated - good,
    })
}

/// Answers the new stated length and changes only the entry's places.
pub fn append(buffer: &mut [u8], stated: usize, verdict: &Verdict) -> Result<usize, Refusal> {
    let good = open(buffer, stated)?.good;
    let entry = entry::write(verdict, good).ok_or(Refusal::new(VERDICT, 0))?;
    let end = good + entry.len();
    if end > limit(buffer) {
        return Err(Refusal::new(NO_ROOM, good));
    }
    buffer[good..end].copy_from_slice(&entry);
    Ok(stated.max(end))
}

/// Entry k, counted from 1.
pub fn fetch(buffer: &[u8], stated: usize, k: usize) -> Result<Verdict, Refusal> {
    let verdicts = verdicts(buffer, stated)?;
    let index = k.checked_sub(1).filter(|&index| index < verdicts.len());
    index
        .map(|index| verdicts[index].clone())
        .ok_or(Refusal::new(NO_ENTRY, 0))
}

fn limit(buffer: &[u8]) -> usize {
    buffer.len().min(BOOK_BYTES)
}

fn good_length(held: &[u8]) -> usize {
    held.iter()
        .rposition(|&byte| byte == b'\n')
        .map_or(0, |last| last + 1)
}

/// All entries of the good part, or 13 at the first line that fails.
fn verdicts(buffer: &[u8], stated: usize) -> Result<Vec<Verdict>, Refusal> {
    if stated > limit(buffer) {
        return Err(Refusal::new(NOT_A_BOOK, limit(buffer)));
    }
    let mut place = 0;
    let good = &buffer[..good_length(&buffer[..stated])];
    let lines = good.split_inclusive(|&byte| byte == b'\n');
    lines
        .map(|line| {
            let verdict = entry::read(line, place).ok_or(Refusal::new(NOT_A_BOOK, place));
            place += line.len();
            verdict
        })
        .collect()
}
