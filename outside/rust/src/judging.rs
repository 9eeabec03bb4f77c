//! Order verdicts of a table.

use crate::refusal::told;
use crate::{ffi, Numbers, Refusal, Witness, INPUTS};

/// Where an area has its number of inputs.
const COUNT_OF_INPUTS: usize = 34;

/// True is yes: no disagreement has only those two inputs changed.
pub type Square = [[bool; INPUTS]; INPUTS];

#[derive(Clone, PartialEq, Eq, Debug)]
pub enum Finding {
    Independent,
    Dependent(Witness),
}

impl Finding {
    /// What a call tells by `I` or `D` and the numbers of a witness, for a table of so many inputs.
    pub(crate) fn of(letter: u8, witness: &Numbers, inputs: usize) -> Finding {
        match letter {
            b'I' => Finding::Independent,
            _ => Finding::Dependent(Witness::of(witness, inputs)),
        }
    }
}

/// Judges a table: independent, or the first disagreement.
pub fn judge(area: &[u8]) -> Result<Finding, Refusal> {
    let (mut witness, mut answer) = ([0; ffi::WITNESS], 0);
    // Safety: the first pointer comes with the length of its slice, the others are as long as the call says.
    let number =
        unsafe { ffi::bankplover_judge(area.as_ptr(), area.len(), &mut witness, &mut answer) };
    let letter = told(number, answer)? as u8;
    Ok(Finding::of(
        letter,
        &witness,
        usize::from(area[COUNT_OF_INPUTS]),
    ))
}

/// The pairwise answers, inputs counted from 0; the diagonal and what lies beyond n are yes.
pub fn square(area: &[u8]) -> Result<Square, Refusal> {
    let (mut cells, mut answer) = ([0; ffi::SQUARE], 0);
    // Safety: the first pointer comes with the length of its slice, the others are as long as the call says.
    let number =
        unsafe { ffi::bankplover_square(area.as_ptr(), area.len(), &mut cells, &mut answer) };
    told(number, answer)?;
    let mut square = [[false; INPUTS]; INPUTS];
    for (k, &cell) in cells.iter().enumerate() {
        square[k / INPUTS][k % INPUTS] = cell == 1;
    }
    Ok(square)
}
