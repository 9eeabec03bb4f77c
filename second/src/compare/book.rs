//! The book: opening, append, fetch, cuts and whole runs.

use super::{cases, kind, same, same_bytes, show, Mismatch, Outcome, Stats};
use crate::book::cut::Pending;
use crate::book::{append, fetch, open, Opened, Verdict};
use crate::generate::books::{self, Lent};
use crate::generate::random::Random;
use crate::generate::verdicts;
use crate::judge::Finding;
use crate::Refusal;

pub type Open<'a> = dyn Fn(&[u8], usize) -> Result<Opened, Refusal> + 'a;
pub type Append<'a> = dyn Fn(&mut [u8], usize, &Verdict) -> Result<usize, Refusal> + 'a;
pub type Fetch<'a> = dyn Fn(&[u8], usize, usize) -> Result<Verdict, Refusal> + 'a;

pub fn compare_opening(seed: u64, count: usize, other: &Open) -> Outcome {
    cases(seed, count, |seed, random| {
        let lent = books::lent(random);
        compare_open(seed, &lent.buffer, lent.stated, other)
    })
}

fn compare_open(seed: u64, buffer: &[u8], stated: usize, other: &Open) -> Result<String, Mismatch> {
    let ours = open(buffer, stated);
    let input = || format!("stated {stated}, buffer {}", show(buffer));
    same("opening", seed, input, &ours, &other(buffer, stated))?;
    Ok(kind(&ours, "opened"))
}

/// Answers and the whole buffer's final bytes.
pub fn compare_append(seed: u64, count: usize, other: &Append) -> Outcome {
    cases(seed, count, |seed, random| {
        let lent = lent_with_any_room(random);
        let verdict = any_verdict(random);
        let (mut ours, mut theirs) = (lent.buffer.clone(), lent.buffer.clone());
        let answer = append(&mut ours, lent.stated, &verdict);
        let their_answer = other(&mut theirs, lent.stated, &verdict);
        let input = || {
            format!(
                "{verdict:?}, stated {}, buffer {}",
                lent.stated,
                show(&lent.buffer)
            )
        };
        same("append's answer", seed, input, &answer, &their_answer)?;
        same_bytes("append's buffer", seed, input, &ours, &theirs)?;
        Ok(kind(&answer, "appended"))
    })
}

/// The buffer now and then ends just where an entry might.
fn lent_with_any_room(random: &mut Random) -> Lent {
    let mut lent = books::lent(random);
    if random.one_in(3) && lent.stated <= lent.buffer.len() {
        lent.buffer
            .resize(lent.stated + random.below(100), random.byte());
    }
    lent
}

fn any_verdict(random: &mut Random) -> Verdict {
    match random.below(4) {
        0 => verdicts::faulty(random),
        1 => verdicts::longest(random),
        _ => verdicts::verdict(random),
    }
}

pub fn compare_fetch(seed: u64, count: usize, other: &Fetch) -> Outcome {
    cases(seed, count, |seed, random| {
        let lent = books::lent(random);
        let entries = open(&lent.buffer, lent.stated).map_or(1, |opened| opened.count);
        let k = if random.one_in(20) {
            usize::MAX
        } else {
            random.below(entries + 2)
        };
        let ours = fetch(&lent.buffer, lent.stated, k);
        let input = || {
            format!(
                "k {k}, stated {}, buffer {}",
                lent.stated,
                show(&lent.buffer)
            )
        };
        same(
            "fetch",
            seed,
            input,
            &ours,
            &other(&lent.buffer, lent.stated, k),
        )?;
        Ok(kind(&ours, "fetched"))
    })
}

/// Opening after a cut by chance, during an append to a book by chance.
pub fn compare_cuts(seed: u64, count: usize, other: &Open) -> Outcome {
    cases(seed, count, |seed, random| {
        let (mut lent, _) = books::run(random);
        lent.buffer.resize(lent.stated + 100, 0);
        let verdict = verdicts::verdict(random);
        let pending = Pending::new(&lent.buffer, lent.stated, &verdict).expect("room was made");
        let file = pending.sample_any(random);
        compare_open(seed, &file, file.len(), other)
    })
}

/// Opening after every cut during the append of the shortest entry, with and without torn bytes.
pub fn compare_every_cut(other: &Open) -> Outcome {
    let shortest = Verdict {
        name: b"a".to_vec(),
        inputs: 1,
        rows: 1,
        finding: Finding::Independent,
    };
    let mut stats = Stats::default();
    for held in [&b""[..], b"b 1 1 I @00000\n", b"##"] {
        let mut buffer = held.to_vec();
        buffer.resize(100, 0);
        let pending = Pending::new(&buffer, held.len(), &shortest).expect("there is room");
        let mut first = Ok(());
        pending.each(|file| {
            if first.is_ok() {
                first = compare_open(0, file, file.len(), other).map(|kind| stats.note(kind));
            }
        });
        first?;
    }
    Ok(stats)
}

/// Runs of appends and cuts made by the other one's append alone; what it then fetches must be the
/// verdicts whose last byte was stored.
pub fn compare_runs(
    seed: u64,
    count: usize,
    (open, append, fetch): (&Open, &Append, &Fetch),
) -> Outcome {
    cases(seed, count, |seed, random| {
        let mut lent = Lent {
            buffer: Vec::new(),
            stated: 0,
        };
        let mut stored = Vec::new();
        for _ in 0..random.between(1, 8) {
            let verdict = verdicts::verdict(random);
            lent.buffer.resize(lent.stated + 100, random.byte());
            if event(random, &mut lent, &verdict, append) {
                stored.push(verdict);
            }
        }
        let input = || format!("stated {}, buffer {}", lent.stated, show(&lent.buffer));
        let count = open(&lent.buffer, lent.stated).map(|opened| opened.count);
        same("a run's count", seed, input, &Ok(stored.len()), &count)?;
        let fetched = (1..=stored.len())
            .map(|k| fetch(&lent.buffer, lent.stated, k))
            .collect();
        same(
            "a run's entries",
            seed,
            input,
            &Ok(stored.clone()),
            &fetched,
        )?;
        Ok("run".to_string())
    })
}

/// One append of the other one, cut by one in three; room was made, so it ought to be stored.
fn event(random: &mut Random, lent: &mut Lent, verdict: &Verdict, append: &Append) -> bool {
    let held = lent.clone();
    match append(&mut lent.buffer, lent.stated, verdict) {
        Ok(stated) => lent.stated = stated,
        Err(_) => return true,
    }
    if !random.one_in(3) {
        return true;
    }
    let pending = Pending::new(&held.buffer, held.stated, verdict).expect("room was made");
    let file = pending.sample_any(random);
    lent.stated = file.len();
    lent.buffer = held.buffer;
    lent.buffer[..file.len()].copy_from_slice(&file);
    file == pending.whole()
}
