//! A disagreement of two orders: written out, and as the numbers that the calls take and give.

use crate::ffi;

/// The two inputs i < j, the previous vector as a number in base 3, the current values of i and of j,
/// the old output, and the outputs of the two orders; values as bytes.
pub type Numbers = [usize; ffi::WITNESS];

const VALUES: [u8; 3] = *b"01x";

/// Vectors and values are the bytes `0`, `1`, `x`; orders are input numbers from 1.
#[derive(Clone, PartialEq, Eq, Debug)]
pub struct Witness {
    pub prev: Vec<u8>,
    pub cur: Vec<u8>,
    pub old: u8,
    pub order1: Vec<u8>,
    pub out1: u8,
    pub order2: Vec<u8>,
    pub out2: u8,
}

impl Witness {
    /// Writes out a witness that a call has given for a table of so many inputs.
    pub(crate) fn of(numbers: &Numbers, inputs: usize) -> Witness {
        let [i, j, previous, i_now, j_now, old, out1, out2] = *numbers;
        let prev = vector(previous, inputs);
        let mut cur = prev.clone();
        cur[i - 1] = i_now as u8;
        cur[j - 1] = j_now as u8;
        Witness {
            prev,
            cur,
            old: old as u8,
            order1: pair_first(inputs, i, j),
            out1: out1 as u8,
            order2: pair_first(inputs, j, i),
            out2: out2 as u8,
        }
    }

    /// The numbers of this witness for so many inputs; nothing if none say the same.
    pub fn numbers(&self, inputs: usize) -> Option<Numbers> {
        if self.prev.len() != inputs || self.cur.len() != inputs {
            return None;
        }
        let changed: Vec<usize> = (0..inputs)
            .filter(|&k| self.prev[k] != self.cur[k])
            .collect();
        let [i, j] = changed[..] else { return None };
        let numbers = [
            i + 1,
            j + 1,
            number(&self.prev)?,
            usize::from(self.cur[i]),
            usize::from(self.cur[j]),
            usize::from(self.old),
            usize::from(self.out1),
            usize::from(self.out2),
        ];
        (Witness::of(&numbers, inputs) == *self).then_some(numbers)
    }
}

/// Input 1 weighs most.
fn vector(mut number: usize, inputs: usize) -> Vec<u8> {
    let mut vector = vec![0; inputs];
    for value in vector.iter_mut().rev() {
        *value = VALUES[number % 3];
        number /= 3;
    }
    vector
}

fn number(vector: &[u8]) -> Option<usize> {
    vector.iter().try_fold(0usize, |number, value| {
        let rank = VALUES.iter().position(|other| other == value)?;
        number.checked_mul(3)?.checked_add(rank)
    })
}

/// The full order `first`, `second`, others rising.
fn pair_first(inputs: usize, first: usize, second: usize) -> Vec<u8> {
    let others = (1..=inputs).filter(|&k| k != first && k != second);
    let order = [first, second].into_iter().chain(others);
    order.map(|k| k as u8).collect()
}
