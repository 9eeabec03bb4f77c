//! The book: opening, append, fetch, after every kind of cut and damage, and at the limits.

use crate::report::{part, Comparison};
use crate::verified;
use second::book::{append, open, Verdict};
use second::compare::book::{
    compare_append, compare_cuts, compare_every_cut, compare_fetch, compare_opening, compare_runs,
};
use second::compare::{cases, kind, same, same_bytes, Outcome};
use second::generate::random::Random;
use second::generate::{books, vectors, verdicts};
use second::judge::{pair_first, Finding, Witness};

pub const COMPARISON: Comparison = Comparison {
    name: "book",
    parts: &[
        part("opening", 6_000, |seed, count| {
            compare_opening(seed, count, &verified::open)
        }),
        part("append", 6_000, |seed, count| {
            compare_append(seed, count, &verified::append)
        }),
        part("numbers", 10_000, numbers),
        part("limits", 50, limits),
        part("fetch", 6_000, |seed, count| {
            compare_fetch(seed, count, &verified::fetch)
        }),
        part("cuts", 6_000, |seed, count| {
            compare_cuts(seed, count, &verified::open)
        }),
        part("every-cut", 0, |_, _| compare_every_cut(&verified::open)),
        part("runs", 1_000, |seed, count| {
            let calls = (
                &verified::open as _,
                &verified::append as _,
                &verified::fetch as _,
            );
            compare_runs(seed, count, calls)
        }),
    ],
};

type Numbers = bankplover::Numbers;

/// Appends with letters and numbers by chance, of which many fit no layout.
fn numbers(seed: u64, count: usize) -> Outcome {
    cases(seed, count, |seed, random| {
        let inputs = *random.pick(&[0, 1, 2, 2, 3, 3, 4, 9, 10, usize::MAX]);
        let letter = *random.pick(b"DDDDDDII\0d");
        let witness = witness(random, inputs);
        let (mut ours, mut theirs) = (vec![b'#'; 100], vec![b'#'; 100]);
        let expected = append(&mut ours, 0, &spelled(inputs, letter, &witness));
        let told =
            bankplover::append_numbers(&mut theirs, 0, b"name", (inputs, 3), letter, &witness);
        let input = || format!("inputs {inputs}, letter {letter}, witness {witness:?}");
        same(
            "append",
            seed,
            input,
            &expected,
            &told.map_err(verified::refusal),
        )?;
        same_bytes("append's buffer", seed, input, &ours, &theirs)?;
        Ok(kind(&expected, "appended"))
    })
}

/// Fits by about one in two for a sound number of inputs.
fn witness(random: &mut Random, inputs: usize) -> Numbers {
    let n = inputs.clamp(2, 9);
    let j = random.between(2, n);
    let i = random.between(1, j - 1);
    let values = [(); 5].map(|()| usize::from(vectors::value(random)));
    let previous = random.below(3usize.pow(n as u32));
    let mut witness = [i, j, previous, 0, 0, 0, 0, 0];
    witness[3..].copy_from_slice(&values);
    if random.one_in(3) {
        let odd = [
            0,
            1,
            n,
            n + 1,
            3usize.pow(n as u32),
            2,
            48 + 256,
            50,
            88,
            usize::MAX,
        ];
        witness[random.below(8)] = *random.pick(&odd);
    }
    witness
}

/// What the numbers say; a finding that fits no layout where they say nothing.
fn spelled(inputs: usize, letter: u8, witness: &Numbers) -> Verdict {
    let finding = match letter {
        b'I' => Finding::Independent,
        b'D' => Finding::Dependent(written_out(inputs, witness).unwrap_or_else(nothing)),
        _ => Finding::Dependent(nothing()),
    };
    Verdict {
        name: b"name".to_vec(),
        inputs,
        rows: 3,
        finding,
    }
}

fn nothing() -> Witness {
    Witness {
        prev: Vec::new(),
        cur: Vec::new(),
        old: 0,
        order1: Vec::new(),
        out1: 0,
        order2: Vec::new(),
        out2: 0,
    }
}

fn written_out(n: usize, witness: &Numbers) -> Option<Witness> {
    let [i, j, previous, ref values @ ..] = *witness;
    if n > 9 || i == 0 || i >= j || j > n || previous >= 3usize.pow(n as u32) {
        return None;
    }
    let values: Vec<u8> = values
        .iter()
        .map(|&value| u8::try_from(value).unwrap_or(0))
        .collect();
    let weight = |k: usize| 3usize.pow((n - 1 - k) as u32);
    let prev: Vec<u8> = (0..n).map(|k| b"01x"[previous / weight(k) % 3]).collect();
    let mut cur = prev.clone();
    (cur[i - 1], cur[j - 1]) = (values[0], values[1]);
    Some(Witness {
        prev,
        cur,
        old: values[2],
        order1: pair_first(n, i - 1, j - 1),
        out1: values[3],
        order2: pair_first(n, j - 1, i - 1),
        out2: values[4],
    })
}

/// Appends to books that are nearly full, in buffers that end about where the entry would.
fn limits(seed: u64, count: usize) -> Outcome {
    cases(seed, count, |seed, random| {
        let mut lent = books::full(random);
        let verdict = verdicts::verdict(random);
        let good = open(&lent.buffer, lent.stated).map_or(0, |opened| opened.good);
        if random.one_in(2) {
            lent.buffer.truncate(good + random.below(100));
        }
        let (mut ours, mut theirs) = (lent.buffer.clone(), lent.buffer.clone());
        let answer = append(&mut ours, lent.stated, &verdict);
        let told = verified::append(&mut theirs, lent.stated, &verdict);
        let input = || format!("seed {seed}: {verdict:?} at {good}");
        same("append's answer", seed, input, &answer, &told)?;
        same_bytes("append's buffer", seed, input, &ours, &theirs)?;
        Ok(kind(&answer, "appended"))
    })
}
