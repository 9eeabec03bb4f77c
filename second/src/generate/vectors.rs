//! Lent vectors, old outputs and orders, sound and faulty.

use super::random::Random;
use crate::value::Value;

const WRONG: &[u8] = b"X2b?-z \x00\x01\x02\xff";

pub fn vector(random: &mut Random, n: usize) -> Vec<u8> {
    (0..n).map(|_| value(random)).collect()
}

pub fn value(random: &mut Random) -> u8 {
    random.pick(&Value::ALL).byte()
}

/// A vector that differs from `prev` in about half its places.
pub fn next_vector(random: &mut Random, prev: &[u8]) -> Vec<u8> {
    prev.iter()
        .map(|&byte| {
            if random.one_in(2) {
                byte
            } else {
                value(random)
            }
        })
        .collect()
}

/// A wrong length or a byte that is no value.
pub fn faulty_vector(random: &mut Random, n: usize) -> Vec<u8> {
    let mut vector = vector(random, n);
    match random.below(4) {
        0 => vector.push(value(random)),
        1 => vector.truncate(n - 1),
        2 => vector.clear(),
        _ => vector[random.below(n)] = faulty_value(random),
    }
    vector
}

pub fn faulty_value(random: &mut Random) -> u8 {
    *random.pick(WRONG)
}

/// A list of different numbers: a full order, or the beginning of one, even none.
pub fn order(random: &mut Random, n: usize) -> Vec<u8> {
    let mut order: Vec<u8> = (1..=n as u8).collect();
    random.shuffle(&mut order);
    if random.one_in(3) {
        order.truncate(random.between(0, n));
    }
    order
}

/// An order with a number repeated, or one outside 1 to n, at any index.
pub fn faulty_order(random: &mut Random, n: usize) -> Vec<u8> {
    let mut order = order(random, n);
    let outside = [0, n as u8 + 1, b'1', 255];
    for _ in 0..random.between(1, 2) {
        let again = order.first().copied().unwrap_or(0);
        let number = if random.one_in(2) {
            again
        } else {
            *random.pick(&outside)
        };
        order.insert(random.between(0, order.len()), number);
    }
    order
}
