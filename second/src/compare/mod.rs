//! Comparing another implementation with this one, over the seeded generators.
//!
//! The other one comes as plain functions on byte slices. Case k of a comparison is made from the
//! seed plus k alone, so a mismatch comes back with the seed it names and a count of one.

pub mod book;
pub mod evaluation;
pub mod judging;
pub mod listing;
pub mod matching;
pub mod reading;

use crate::generate::random::Random;
use std::collections::BTreeMap;
use std::fmt;

/// How many cases agreed, and how often each kind of answer was among them.
#[derive(Clone, PartialEq, Eq, Debug, Default)]
pub struct Stats {
    pub cases: usize,
    pub answers: BTreeMap<String, usize>,
}

impl Stats {
    pub fn note(&mut self, answer: impl Into<String>) {
        self.cases += 1;
        *self.answers.entry(answer.into()).or_default() += 1;
    }

    pub fn add(&mut self, other: Stats) {
        self.cases += other.cases;
        for (answer, count) in other.answers {
            *self.answers.entry(answer).or_default() += count;
        }
    }

    pub fn count(&self, answer: &str) -> usize {
        self.answers.get(answer).copied().unwrap_or(0)
    }
}

#[derive(Clone, PartialEq, Eq, Debug)]
pub struct Mismatch {
    pub call: &'static str,
    pub seed: u64,
    pub input: String,
    pub ours: String,
    pub theirs: String,
}

impl fmt::Display for Mismatch {
    fn fmt(&self, out: &mut fmt::Formatter<'_>) -> fmt::Result {
        writeln!(out, "{} differs, seed {}", self.call, self.seed)?;
        writeln!(out, "input:  {}", self.input)?;
        writeln!(out, "ours:   {}", self.ours)?;
        write!(out, "theirs: {}", self.theirs)
    }
}

pub type Outcome = Result<Stats, Mismatch>;

/// Runs cases from rising seeds; a case answers the kind of its answer.
pub fn cases(
    seed: u64,
    count: usize,
    one: impl Fn(u64, &mut Random) -> Result<String, Mismatch>,
) -> Outcome {
    let mut stats = Stats::default();
    for k in 0..count as u64 {
        let seed = seed.wrapping_add(k);
        stats.note(one(seed, &mut Random::new(seed))?);
    }
    Ok(stats)
}

/// Two answers to one input; the input is written out only where they differ.
pub fn same<A: PartialEq + fmt::Debug>(
    call: &'static str,
    seed: u64,
    input: impl Fn() -> String,
    ours: &A,
    theirs: &A,
) -> Result<(), Mismatch> {
    if ours == theirs {
        return Ok(());
    }
    let (ours, theirs) = (format!("{ours:?}"), format!("{theirs:?}"));
    Err(Mismatch {
        call,
        seed,
        input: input(),
        ours,
        theirs,
    })
}

/// Two results in bytes, which are written out only where they differ.
pub fn same_bytes(
    call: &'static str,
    seed: u64,
    input: impl Fn() -> String,
    ours: &[u8],
    theirs: &[u8],
) -> Result<(), Mismatch> {
    if ours == theirs {
        return Ok(());
    }
    same(call, seed, input, &show(ours), &show(theirs))
}

pub fn show(bytes: &[u8]) -> String {
    format!("{} bytes \"{}\"", bytes.len(), bytes.escape_ascii())
}

pub fn kind<A>(answer: &Result<A, crate::Refusal>, good: &str) -> String {
    match answer {
        Ok(_) => good.to_string(),
        Err(refusal) => format!("refused {}", refusal.number),
    }
}
