//! Judging: finding, witness and square.

use super::{cases, same, show, Mismatch, Outcome};
use crate::area::encode;
use crate::generate::random::Random;
use crate::generate::{areas, independent, tables};
use crate::judge::{judge, Finding, Judged};
use crate::limits::{INPUTS, ROWS};
use crate::print;
use crate::table::Table;
use crate::Refusal;

pub type Judge<'a> = dyn Fn(&[u8]) -> Result<Judged, Refusal> + 'a;

/// Areas of all sizes, some not well formed.
pub fn compare_judging(seed: u64, count: usize, other: &Judge) -> Outcome {
    cases(seed, count, |seed, random| {
        if random.one_in(10) {
            let area = areas::area(random);
            return compare_one(seed, &area, || show(&area), other);
        }
        let inputs = random.between(1, INPUTS);
        compare_table(seed, &tables::sized(random, inputs), other)
    })
}

/// Tables of nine inputs and up to 64 rows, independent or nearly so.
pub fn compare_judging_large(seed: u64, count: usize, other: &Judge) -> Outcome {
    cases(seed, count, |seed, random| {
        compare_table(seed, &large(random), other)
    })
}

fn large(random: &mut Random) -> Table {
    match random.below(3) {
        0 => independent::nearly(random, INPUTS),
        1 => independent::same_steps(random, INPUTS, ROWS),
        _ => independent::any(random, INPUTS),
    }
}

pub fn compare_table(seed: u64, table: &Table, other: &Judge) -> Result<String, Mismatch> {
    let text = || String::from_utf8_lossy(&print::text(table)).into_owned();
    compare_one(seed, &encode(table), text, other)
}

fn compare_one(
    seed: u64,
    area: &[u8],
    input: impl Fn() -> String,
    other: &Judge,
) -> Result<String, Mismatch> {
    let ours = judge(area);
    same("judging", seed, input, &ours, &other(area))?;
    Ok(match ours {
        Err(refusal) => format!("refused {}", refusal.number),
        Ok(Judged {
            finding: Finding::Independent,
            ..
        }) => "I".to_string(),
        Ok(_) => "D".to_string(),
    })
}
