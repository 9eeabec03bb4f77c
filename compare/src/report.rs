//! Comparisons, their parts, and the line that each prints.

use second::compare::{Mismatch, Outcome, Stats};
use std::io;
use std::time::Instant;

/// Case k of a part is made from the seed plus k alone; a part that tries all cases takes no heed of both.
pub struct Part {
    pub name: &'static str,
    pub seed: u64,
    pub count: usize,
    pub run: fn(u64, usize) -> Outcome,
}

pub struct Comparison {
    pub name: &'static str,
    pub parts: &'static [Part],
}

/// The kinds of answers that have so many cases by default.
pub const fn part(name: &'static str, count: usize, run: fn(u64, usize) -> Outcome) -> Part {
    Part {
        name,
        seed: 1,
        count,
        run,
    }
}

/// Runs every part and prints one line for all of them.
pub fn run(comparison: &Comparison) -> bool {
    run_parts(comparison.name, comparison.parts.iter())
}

pub fn run_part(comparison: &Comparison, part: &Part) -> bool {
    run_parts(comparison.name, std::iter::once(part))
}

fn run_parts<'p>(name: &str, parts: impl Iterator<Item = &'p Part>) -> bool {
    let begun = Instant::now();
    let mut stats = Stats::default();
    for part in parts {
        match (part.run)(part.seed, part.count) {
            Ok(more) => stats.add(more),
            Err(mismatch) => {
                differs(name, part, &mismatch);
                return false;
            }
        }
    }
    agree(name, &stats, begun);
    true
}

/// Runs a comparison that is of one piece and may need other programs.
pub fn once(name: &str, run: impl FnOnce() -> io::Result<Outcome>) -> bool {
    let begun = Instant::now();
    match run() {
        Ok(Ok(stats)) => {
            agree(name, &stats, begun);
            return true;
        }
        Ok(Err(mismatch)) => println!("{name}: {mismatch}"),
        Err(error) => println!("{name}: {error}"),
    }
    false
}

/// One line: how many agree, how many of each kind of answer, and the time it took.
fn agree(name: &str, stats: &Stats, begun: Instant) {
    let kinds: Vec<String> = stats
        .answers
        .iter()
        .map(|(kind, count)| format!("{kind}: {count}"))
        .collect();
    println!(
        "{name}: {} agree ({}) in {:.1} s",
        stats.cases,
        kinds.join(", "),
        begun.elapsed().as_secs_f64()
    );
}

/// Ours is the second implementation, theirs the verified library.
fn differs(name: &str, part: &Part, mismatch: &Mismatch) {
    println!("{name}, part {}: {mismatch}", part.name);
    println!("again:  compare {name} {} {}", part.name, mismatch.seed);
}
