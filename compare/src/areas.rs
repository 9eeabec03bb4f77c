//! Which areas are well formed: generated areas, and sound ones with every place changed in turn.

use crate::report::{part, Comparison};
use second::area::{encode, is_well_formed};
use second::compare::reading::compare_well_formed;
use second::compare::{cases, same, show, Outcome, Stats};
use second::generate::random::Random;
use second::generate::tables;

pub const COMPARISON: Comparison = Comparison {
    name: "areas",
    parts: &[
        part("generated", 12_000, |seed, count| {
            compare_well_formed(seed, count, &bankplover::is_well_formed)
        }),
        part("every-place", 9, every_place),
    ],
};

const VALUES: &[u8] = b"\x00\x01\xff01xb?r*-c";

/// A few sound areas, each place of them in turn set to telling bytes.
fn every_place(seed: u64, count: usize) -> Outcome {
    let mut stats = Stats::default();
    for k in 0..count as u64 {
        let seed = seed.wrapping_add(k);
        let inputs = 1 + k as usize % 9;
        let sound = encode(&tables::sized(&mut Random::new(seed), inputs)).to_vec();
        stats.add(cases(seed, 1, |seed, _| compare(seed, &sound))?);
        for place in 0..sound.len() {
            let mut area = sound.clone();
            let value = VALUES[(place + k as usize) % VALUES.len()];
            area[place] = if sound[place] == value { 2 } else { value };
            stats.note(compare(seed, &area)?);
        }
    }
    Ok(stats)
}

fn compare(seed: u64, area: &[u8]) -> Result<String, second::compare::Mismatch> {
    let ours = is_well_formed(area);
    let theirs = bankplover::is_well_formed(area);
    same("well-formedness", seed, || show(area), &ours, &theirs)?;
    Ok(ours.to_string())
}
