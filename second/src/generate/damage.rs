//! Damage without aim: to the tokens of a text and to its bytes.

use super::random::Random;
use super::source::Token;
use crate::name::keywords;

const TELLING: &[u8] = b" \t\n\x0b\x0c\0/*'\"01xXbB?rfpn*-(),;:=_$aQ\x80\xff#`\\z2";
const STRAY: [&[u8]; 14] = [
    b"(", b")", b",", b";", b":", b"=", b"/", b"0", b"module", b"q", b"-", b"1'b0", b"'", b"(01)",
];

/// Tokens swapped, dropped, doubled or put in, once or twice.
pub fn tokens(random: &mut Random, tokens: &mut Vec<Token>) {
    for _ in 0..random.between(1, 2) {
        let k = random.below(tokens.len());
        match random.below(5) {
            0 if k > 0 => tokens.swap(k - 1, k),
            1 => {
                let other = random.below(tokens.len());
                tokens.swap(k, other);
            }
            2 if tokens.len() > 1 => drop(tokens.remove(k)),
            3 => tokens.insert(k, stray(random)),
            _ => tokens.insert(k, tokens[k].clone()),
        }
    }
}

fn stray(random: &mut Random) -> Token {
    let pool = if random.one_in(3) { keywords() } else { &STRAY };
    Token {
        bytes: random.pick(pool).to_vec(),
        in_row: random.one_in(2),
    }
}

/// Bytes changed, inserted or deleted, once to three times.
pub fn bytes(random: &mut Random, text: &mut Vec<u8>) {
    for _ in 0..random.between(1, 3) {
        if text.is_empty() {
            return;
        }
        let place = random.below(text.len());
        match random.below(4) {
            0 => drop(text.remove(place)),
            1 => text.insert(place, byte(random)),
            2 => text[place] = byte(random),
            _ => text.truncate(if random.one_in(4) { place } else { text.len() }),
        }
    }
}

pub fn byte(random: &mut Random) -> u8 {
    if random.one_in(5) {
        return random.byte();
    }
    *random.pick(TELLING)
}
