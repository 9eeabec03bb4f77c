//! The step table: for each input, previous value and vector, what the step makes of each old output.

use super::masks::Masks;
use crate::limits::INPUTS;

/// Three outputs in one byte, two bits for each old output.
pub type Code = u8;

const UNCHANGED: Code = code([0, 1, 2]);
const X: u8 = 2;

pub struct Steps {
    pub n: usize,
    /// 3 to the power n.
    pub vectors: usize,
    codes: Vec<Code>,
}

pub const fn code(outputs: [u8; 3]) -> Code {
    outputs[0] | outputs[1] << 2 | outputs[2] << 4
}

pub fn output(code: Code, old: usize) -> usize {
    usize::from(code >> (2 * old) & 3)
}

impl Steps {
    pub fn new(masks: &Masks, n: usize) -> Steps {
        let vectors = 3usize.pow(n as u32);
        let mut steps = Steps {
            n,
            vectors,
            codes: vec![UNCHANGED; n * 3 * vectors],
        };
        let mut digits = [0; INPUTS];
        for v in 0..vectors {
            steps.fill_vector(masks, v, &digits[..n]);
            count_up(&mut digits[..n]);
        }
        steps
    }

    /// The codes of the steps of `input` from rank `from`, by the vector that the step arrives at.
    pub fn plane(&self, input: usize, from: usize) -> &[Code] {
        &self.codes[(input * 3 + from) * self.vectors..][..self.vectors]
    }

    fn fill_vector(&mut self, masks: &Masks, v: usize, digits: &[usize]) {
        let n = digits.len();
        let mut behind = [u64::MAX; INPUTS + 1];
        for k in (0..n).rev() {
            behind[k] = behind[k + 1] & masks.level[k][digits[k]];
        }
        let levels = decide(masks, behind[0], [None; 3]);
        let mut before = u64::MAX;
        for k in 0..n {
            let others = before & behind[k + 1];
            self.fill_changes(masks, v, k, digits[k], others, levels);
            before &= masks.level[k][digits[k]];
        }
    }

    fn fill_changes(
        &mut self,
        masks: &Masks,
        v: usize,
        k: usize,
        to: usize,
        others: u64,
        levels: [Option<u8>; 3],
    ) {
        for from in (0..3).filter(|&from| from != to) {
            let outputs = decide(masks, others & masks.change[k][from][to], levels);
            let code = code(outputs.map(|output| output.unwrap_or(X)));
            self.codes[(k * 3 + from) * self.vectors + v] = code;
        }
    }
}

/// Fills in the outputs that a set of rows gives where none is given yet.
fn decide(masks: &Masks, rows: u64, given: [Option<u8>; 3]) -> [Option<u8>; 3] {
    let mut outputs = given;
    for old in 0..3 {
        let matching = rows & masks.state[old];
        if matching != 0 && given[old].is_none() {
            outputs[old] = Some(masks.output[matching.trailing_zeros() as usize][old]);
        }
    }
    outputs
}

fn count_up(digits: &mut [usize]) {
    for digit in digits.iter_mut().rev() {
        *digit += 1;
        if *digit < 3 {
            return;
        }
        *digit = 0;
    }
}
