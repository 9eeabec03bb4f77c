//! Order verdicts: three judges of one question.

pub mod all_orders;
pub mod fast;
pub mod pairwise;

use crate::area;
use crate::limits::INPUTS;
use crate::refusal::{Refusal, NOT_WELL_FORMED};
use crate::table::Table;
use crate::value::{self, Value};

/// True is yes; the diagonal and what lies beyond n are yes.
pub type Square = [[bool; INPUTS]; INPUTS];

/// Vectors and values as the bytes `0`, `1`, `x`; orders as numbers from 1.
#[derive(Clone, PartialEq, Eq, Debug)]
pub struct Witness {
    pub prev: Vec<u8>,
    pub cur: Vec<u8>,
    pub old: u8,
    pub order1: Vec<u8>,
    pub out1: u8,
    pub order2: Vec<u8>,
    pub out2: u8,
}

#[derive(Clone, PartialEq, Eq, Debug)]
pub enum Finding {
    Independent,
    Dependent(Witness),
}

#[derive(Clone, PartialEq, Eq, Debug)]
pub struct Judged {
    pub finding: Finding,
    pub square: Square,
}

impl Judged {
    fn independent() -> Judged {
        Judged {
            finding: Finding::Independent,
            square: [[true; INPUTS]; INPUTS],
        }
    }

    /// Takes the first disagreement of the pair (i, j); pairs come in rising order.
    fn note(&mut self, i: usize, j: usize, witness: Witness) {
        self.square[i][j] = false;
        self.square[j][i] = false;
        if self.finding == Finding::Independent {
            self.finding = Finding::Dependent(witness);
        }
    }
}

/// One disagreement of a pair of inputs, before it is written out.
struct Disagreement {
    i: usize,
    j: usize,
    previous: Vec<Value>,
    current: Vec<Value>,
    old: Value,
    outputs: [Value; 2],
}

impl Disagreement {
    fn witness(&self) -> Witness {
        let n = self.previous.len();
        Witness {
            prev: value::bytes(&self.previous),
            cur: value::bytes(&self.current),
            old: self.old.byte(),
            order1: pair_first(n, self.i, self.j),
            out1: self.outputs[0].byte(),
            order2: pair_first(n, self.j, self.i),
            out2: self.outputs[1].byte(),
        }
    }
}

/// The full order `first`, `second`, others rising, of inputs counted from 0.
pub fn pair_first(n: usize, first: usize, second: usize) -> Vec<u8> {
    let others = (0..n).filter(|&k| k != first && k != second);
    [first, second]
        .into_iter()
        .chain(others)
        .map(|k| k as u8 + 1)
        .collect()
}

/// All pairs i < j of inputs counted from 0, in rising order.
fn pairs(n: usize) -> impl Iterator<Item = (usize, usize)> {
    (0..n).flat_map(move |i| (i + 1..n).map(move |j| (i, j)))
}

/// The public call, on bytes, answered by the fast judge.
pub fn judge(lent: &[u8]) -> Result<Judged, Refusal> {
    table_of(lent).map(|table| fast::judge(&table))
}

/// The same call answered by the plain pairwise search.
pub fn judge_plainly(lent: &[u8]) -> Result<Judged, Refusal> {
    table_of(lent).map(|table| pairwise::judge(&table))
}

fn table_of(lent: &[u8]) -> Result<Table, Refusal> {
    area::decode(lent).ok_or(Refusal::new(NOT_WELL_FORMED, 0))
}
