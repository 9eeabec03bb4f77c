//! Areas, well formed and not.

use super::random::Random;
use super::tables;
use crate::area::{encode, SIZE};
use crate::name::keywords;

const TELLING: &[u8] = b"\x00\x01\x02\x09\x0a\x20\x21\x40\x4101xb?rfpn*-XBRcs(_a$9";

/// Sound by one in three; otherwise damaged in one to three places, or of another size.
pub fn area(random: &mut Random) -> Vec<u8> {
    let inputs = random.between(1, 9);
    let mut area = encode(&tables::sized(random, inputs)).to_vec();
    match random.below(9) {
        0..=2 => {}
        3 => resize(random, &mut area),
        4 => rename(random, &mut area),
        5 => exchange_rows(random, &mut area),
        _ => damage(random, &mut area),
    }
    area
}

fn damage(random: &mut Random, area: &mut [u8]) {
    for _ in 0..random.between(1, 3) {
        let place = place(random, area);
        area[place] = if random.one_in(4) {
            random.byte()
        } else {
            *random.pick(TELLING)
        };
    }
}

/// Mostly a place in use, since those hold most of the rules.
fn place(random: &mut Random, area: &[u8]) -> usize {
    match random.below(4) {
        0 => random.below(37),
        1 => random.below(area.len()),
        _ => 37 + random.below(20 * usize::from(area[36].clamp(1, 64))),
    }
}

fn resize(random: &mut Random, area: &mut Vec<u8>) {
    let size = *random.pick(&[
        0,
        1,
        36,
        37,
        SIZE - 20,
        SIZE - 1,
        SIZE + 1,
        SIZE + 20,
        2 * SIZE,
    ]);
    area.resize(size, 0);
}

fn rename(random: &mut Random, area: &mut [u8]) {
    let word = *random.pick(keywords());
    area[1..33].fill(0);
    area[0] = word.len() as u8;
    area[1..1 + word.len()].copy_from_slice(word);
}

/// Well formed still if both rows are in use; a hole in the rows if not.
fn exchange_rows(random: &mut Random, area: &mut [u8]) {
    let (a, b) = (random.below(64), random.below(64));
    for k in 0..20 {
        area.swap(37 + 20 * a + k, 37 + 20 * b + k);
    }
}
