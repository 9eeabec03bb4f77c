//! The scan of one pair of inputs over all previous vectors, rising.

use super::super::Disagreement;
use super::steps::{code, output, Code, Steps};
use crate::value::Value;

/// `AFTER[first][second]` is the code of both steps one after the other.
static AFTER: [[Code; 64]; 64] = compositions();

const fn compositions() -> [[Code; 64]; 64] {
    let mut table = [[0; 64]; 64];
    let mut k = 0;
    while k < 64 * 64 {
        let (first, second) = (k / 64, k % 64);
        table[first][second] = code([
            apply(second, apply(first, 0)),
            apply(second, apply(first, 1)),
            apply(second, apply(first, 2)),
        ]);
        k += 1;
    }
    table
}

const fn apply(code: usize, old: u8) -> u8 {
    (code >> (2 * old as usize) & 3) as u8
}

fn after(first: Code, second: Code) -> Code {
    AFTER[usize::from(first & 63)][usize::from(second & 63)]
}

/// The pair under search: inputs, weights in a vector's number, previous ranks and their planes.
struct Pair<'s> {
    weights: [usize; 2],
    ranks: [usize; 2],
    planes: [&'s [Code]; 2],
}

impl Pair<'_> {
    /// The codes of both orders for the previous vector `v` and the current ranks `c`, `d`.
    #[inline(always)]
    fn both(&self, v: usize, c: usize, d: usize) -> [Code; 2] {
        let with_i = v + c * self.weights[0] - self.ranks[0] * self.weights[0];
        let with_j = v + d * self.weights[1] - self.ranks[1] * self.weights[1];
        let arrived = with_i + with_j - v;
        let [of_i, of_j] = self.planes;
        [
            after(of_i[with_i], of_j[arrived]),
            after(of_j[with_j], of_i[arrived]),
        ]
    }

    #[inline(always)]
    fn agrees(&self, v: usize) -> bool {
        let [cs, ds] = self.ranks.map(others);
        let differs = |c, d| {
            let [first, second] = self.both(v, c, d);
            first ^ second
        };
        differs(cs[0], ds[0])
            | differs(cs[0], ds[1])
            | differs(cs[1], ds[0])
            | differs(cs[1], ds[1])
            == 0
    }
}

fn others(rank: usize) -> [usize; 2] {
    [[1, 2], [0, 2], [0, 1]][rank]
}

pub fn first_of_pair(steps: &Steps, i: usize, j: usize) -> Option<Disagreement> {
    let weight = |k: usize| 3usize.pow((steps.n - 1 - k) as u32);
    let weights = [weight(i), weight(j)];
    let runs = steps.vectors / weights[1];
    (0..runs).find_map(|run| {
        let ranks = [run / (weights[0] / weights[1]) % 3, run % 3];
        let planes = [steps.plane(i, ranks[0]), steps.plane(j, ranks[1])];
        let pair = Pair {
            weights,
            ranks,
            planes,
        };
        let from = run * weights[1];
        let v = (from..from + weights[1]).find(|&v| !pair.agrees(v))?;
        Some(disagreement(steps.n, &pair, v, i, j))
    })
}

/// Writes out the first disagreement of a vector that has one.
fn disagreement(n: usize, pair: &Pair, v: usize, i: usize, j: usize) -> Disagreement {
    let [cs, ds] = pair.ranks.map(others);
    let cases = cs.into_iter().flat_map(|c| ds.map(|d| (c, d)));
    let mut cases = cases.flat_map(|(c, d)| [0, 1, 2].map(|old| (c, d, old)));
    let outputs = |&(c, d, old): &(usize, usize, usize)| {
        pair.both(v, c, d).map(|code| Value::ALL[output(code, old)])
    };
    let case = cases.find(|case| outputs(case)[0] != outputs(case)[1]);
    let case = case.expect("the vector was found to disagree");
    let previous = vector(n, v);
    let mut current = previous.clone();
    current[i] = Value::ALL[case.0];
    current[j] = Value::ALL[case.1];
    let outputs = outputs(&case);
    Disagreement {
        i,
        j,
        previous,
        current,
        old: Value::ALL[case.2],
        outputs,
    }
}

fn vector(n: usize, v: usize) -> Vec<Value> {
    (0..n)
        .map(|k| Value::ALL[v / 3usize.pow((n - 1 - k) as u32) % 3])
        .collect()
}
