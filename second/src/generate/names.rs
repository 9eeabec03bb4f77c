//! Names, short and long, some that look like keywords and some like symbols.

use super::random::Random;
use crate::limits::NAME_BYTES;
use crate::name::{is_keyword, is_name};

const FIRST: &[u8] = b"abcdefghijklmnopqrstuvwxyzABCDEFGHIJKLMNOPQRSTUVWXYZ_";
const NEXT: &[u8] = b"abcdefghijklmnopqrstuvwxyzABCDEFGHIJKLMNOPQRSTUVWXYZ_0123456789$";
const ODD: [&[u8]; 12] = [
    b"x",
    b"b",
    b"r",
    b"_",
    b"table0",
    b"outputq",
    b"Table",
    b"module",
    b"endtables",
    b"q",
    b"rfpn",
    b"input$",
];

pub fn name(random: &mut Random) -> Vec<u8> {
    match random.below(8) {
        0 => random.pick(&ODD).to_vec(),
        1 => of_length(random, NAME_BYTES),
        2 => any_length(random, NAME_BYTES),
        _ => any_length(random, 5),
    }
}

fn any_length(random: &mut Random, most: usize) -> Vec<u8> {
    let length = random.between(1, most);
    of_length(random, length)
}

/// A word in the form of a name, of any length, that is no keyword.
pub fn of_length(random: &mut Random, length: usize) -> Vec<u8> {
    loop {
        let mut name = vec![*random.pick(FIRST)];
        name.extend((1..length).map(|_| *random.pick(NEXT)));
        if !is_keyword(&name) {
            return name;
        }
    }
}

pub fn too_long(random: &mut Random) -> Vec<u8> {
    let length = NAME_BYTES
        + 1
        + if random.one_in(2) {
            0
        } else {
            random.below(40)
        };
    of_length(random, length)
}

/// Different names.
pub fn several(random: &mut Random, count: usize) -> Vec<Vec<u8>> {
    let mut names: Vec<Vec<u8>> = Vec::new();
    while names.len() < count {
        let next = name(random);
        debug_assert!(is_name(&next));
        if !names.contains(&next) {
            names.push(next);
        }
    }
    names
}
