//! Evaluation: outputs and refusals.

use super::{cases, kind, same, show, Mismatch, Outcome, Stats};
use crate::area::{decode, encode};
use crate::evaluation::evaluate;
use crate::generate::random::Random;
use crate::generate::{areas, tables, vectors};
use crate::Refusal;

/// Area, previous vector, current vector, old output, order of numbers.
pub type Evaluate<'a> = dyn Fn(&[u8], &[u8], &[u8], u8, &[u8]) -> Result<u8, Refusal> + 'a;

pub fn compare_evaluation(seed: u64, count: usize, other: &Evaluate) -> Outcome {
    cases(seed, count, |seed, random| {
        let (area, n) = lent_table(random);
        compare_call(seed, random, (&area, n), other)
    })
}

/// Sixteen calls with each table, which takes longer to make than a call; two with a table of many
/// rows, where a call takes long too.
pub fn compare_evaluations(seed: u64, tables: usize, other: &Evaluate) -> Outcome {
    let mut stats = Stats::default();
    for k in 0..tables as u64 {
        let seed = seed.wrapping_add(k);
        let random = &mut Random::new(seed);
        let (area, n) = lent_table(random);
        let calls = if has_many_rows(&area) { 2 } else { 16 };
        for _ in 0..calls {
            stats.note(compare_call(seed, random, (&area, n), other)?);
        }
    }
    Ok(stats)
}

fn has_many_rows(lent: &[u8]) -> bool {
    decode(lent).is_some_and(|table| table.rows.len() > 20)
}

/// Vectors, old output and order by chance, for an area and a number of inputs.
fn compare_call(
    seed: u64,
    random: &mut Random,
    (area, n): (&[u8], usize),
    other: &Evaluate,
) -> Result<String, Mismatch> {
    let prev = vectors::vector(random, n);
    let mut lent = Lent {
        cur: vectors::next_vector(random, &prev),
        prev,
        old: vectors::value(random),
        order: vectors::order(random, n),
    };
    lent.spoil(random, n);
    let vectors = (&lent.prev[..], &lent.cur[..]);
    compare_one(seed, area, vectors, lent.old, &lent.order, other)
}

struct Lent {
    prev: Vec<u8>,
    cur: Vec<u8>,
    old: u8,
    order: Vec<u8>,
}

impl Lent {
    /// Sound by one in two; the faults come alone or together, so that their order shows.
    fn spoil(&mut self, random: &mut Random, n: usize) {
        if random.one_in(2) {
            return;
        }
        match random.below(8) {
            0 => self.prev = vectors::faulty_vector(random, n),
            1 => self.cur = vectors::faulty_vector(random, n),
            2 => self.old = vectors::faulty_value(random),
            _ => {}
        }
        if random.one_in(2) {
            self.order = vectors::faulty_order(random, n);
        }
    }
}

/// An area, seldom not well formed, with a number of inputs for the vectors.
fn lent_table(random: &mut Random) -> (Vec<u8>, usize) {
    let table = tables::table(random);
    if random.one_in(16) {
        return (areas::area(random), table.inputs);
    }
    (encode(&table).to_vec(), table.inputs)
}

pub(super) fn compare_one(
    seed: u64,
    area: &[u8],
    (prev, cur): (&[u8], &[u8]),
    old: u8,
    order: &[u8],
    other: &Evaluate,
) -> Result<String, Mismatch> {
    let input = || {
        let [area, prev, cur, old] = [area, prev, cur, &[old]].map(show);
        format!("prev {prev}, cur {cur}, old {old}, order {order:?}, area {area}")
    };
    let ours = evaluate(area, prev, cur, old, order);
    same(
        "evaluation",
        seed,
        input,
        &ours,
        &other(area, prev, cur, old, order),
    )?;
    Ok(ours.map_or_else(|_| kind(&ours, ""), |output| (output as char).to_string()))
}
