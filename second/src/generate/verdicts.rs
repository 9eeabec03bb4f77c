//! Verdicts that fit the layout and verdicts that do not.

use super::names;
use super::random::Random;
use super::vectors;
use crate::book::Verdict;
use crate::judge::{pair_first, Finding, Witness};
use crate::limits::{INPUTS, ROWS};
use crate::name::keywords;

pub fn verdict(random: &mut Random) -> Verdict {
    let inputs = random.between(1, INPUTS);
    let finding = if inputs < 2 || random.one_in(3) {
        Finding::Independent
    } else {
        Finding::Dependent(witness(random, inputs))
    };
    Verdict {
        name: names::name(random),
        inputs,
        rows: random.between(1, ROWS),
        finding,
    }
}

/// A verdict of the longest kind: 93 bytes as an entry.
pub fn longest(random: &mut Random) -> Verdict {
    let name = names::of_length(random, 32);
    let finding = Finding::Dependent(witness(random, INPUTS));
    Verdict {
        name,
        inputs: INPUTS,
        rows: random.between(10, ROWS),
        finding,
    }
}

fn witness(random: &mut Random, n: usize) -> Witness {
    let j = random.between(1, n - 1);
    let i = random.below(j);
    let prev = vectors::vector(random, n);
    let mut cur = prev.clone();
    cur[i] = other_value(random, prev[i]);
    cur[j] = other_value(random, prev[j]);
    let out1 = vectors::value(random);
    Witness {
        prev,
        cur,
        old: vectors::value(random),
        order1: pair_first(n, i, j),
        out1,
        order2: pair_first(n, j, i),
        out2: other_value(random, out1),
    }
}

fn other_value(random: &mut Random, value: u8) -> u8 {
    let others: Vec<u8> = b"01x"
        .iter()
        .copied()
        .filter(|&other| other != value)
        .collect();
    *random.pick(&others)
}

/// One thing about a fitting verdict made wrong.
pub fn faulty(random: &mut Random) -> Verdict {
    let mut verdict = verdict(random);
    match &mut verdict.finding {
        Finding::Dependent(witness) if !random.one_in(3) => spoil_witness(random, witness),
        _ => spoil_head(random, &mut verdict),
    }
    verdict
}

fn spoil_head(random: &mut Random, verdict: &mut Verdict) {
    match random.below(7) {
        0 => verdict.name.clear(),
        1 => verdict.name = names::too_long(random),
        2 => verdict.name = random.pick(keywords()).to_vec(),
        3 => {
            let place = random.below(verdict.name.len());
            verdict.name[place] = *random.pick(b" \n\0-'\x80");
        }
        4 => verdict.name[0] = *random.pick(b"0$9"),
        5 => verdict.inputs = *random.pick(&[0, INPUTS + 1, 255, verdict.inputs + 10]),
        _ => verdict.rows = *random.pick(&[0, ROWS + 1, 255, verdict.rows + 100]),
    }
}

fn spoil_witness(random: &mut Random, witness: &mut Witness) {
    let n = witness.prev.len();
    match random.below(9) {
        0 => witness.prev = vectors::faulty_vector(random, n),
        1 => witness.cur = vectors::faulty_vector(random, n),
        2 => witness.old = vectors::faulty_value(random),
        3 => witness.out1 = vectors::faulty_value(random),
        4 => witness.out2 = witness.out1,
        5 => std::mem::swap(&mut witness.order1, &mut witness.order2),
        6 => witness.order2 = vectors::faulty_order(random, n),
        7 => witness.cur = witness.prev.clone(),
        _ => witness.order1 = spoiled_order(random, &witness.order1),
    }
}

/// Another list of numbers, never the given one.
fn spoiled_order(random: &mut Random, order: &[u8]) -> Vec<u8> {
    let mut spoiled = order.to_vec();
    match random.below(3) {
        0 => spoiled.push(1),
        1 => spoiled.reverse(),
        _ => spoiled[random.below(order.len())] = *random.pick(&[0, 10, 48, 255]),
    }
    spoiled
}
