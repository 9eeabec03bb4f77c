//! Lines of a book with one thing wrong, of every kind.

use super::damage;
use super::random::Random;
use super::verdicts;
use crate::book::entry;
use crate::judge::Finding;

/// A line that starts at `place`, damaged in one of many ways; it ends with its LF.
pub fn damaged(random: &mut Random, place: usize) -> Vec<u8> {
    let verdict = verdicts::verdict(random);
    let line = entry::write(&verdict, place).expect("a fitting verdict");
    let mut fields: Vec<Vec<u8>> = line[..line.len() - 1]
        .split(|&byte| byte == b' ')
        .map(<[u8]>::to_vec)
        .collect();
    let dependent = verdict.finding != Finding::Independent;
    match random.below(12) {
        0 => return bytes(random, line),
        1 => return b"\n".to_vec(),
        2 => fields[0] = verdicts::faulty(random).name,
        3 => fields[1] = number(random),
        4 => fields[2] = number(random),
        5 => fields[3] = random.pick(&[b"i", b"d", b"H", b"X"]).to_vec(),
        6 => fields_count(random, &mut fields),
        7 => trailer(random, &mut fields, place),
        8 if dependent => witness_field(random, &mut fields),
        9 if dependent => fields.swap(7, 9),
        10 if dependent => fields[10] = fields[8].clone(),
        _ => spaces(random, &mut fields),
    }
    joined(fields)
}

fn joined(fields: Vec<Vec<u8>>) -> Vec<u8> {
    let mut line = fields.join(&b' ');
    line.push(b'\n');
    line
}

/// Byte damage that leaves one LF, at the end.
fn bytes(random: &mut Random, mut line: Vec<u8>) -> Vec<u8> {
    damage::bytes(random, &mut line);
    line.retain(|&byte| byte != b'\n');
    line.push(b'\n');
    line
}

fn number(random: &mut Random) -> Vec<u8> {
    let pool: [&[u8]; 12] = [
        b"0",
        b"10",
        b"65",
        b"02",
        b"",
        b"+2",
        b"2x",
        b"100",
        b"-1",
        b"00",
        b"999999999999999999999",
        b"A",
    ];
    random.pick(&pool).to_vec()
}

fn fields_count(random: &mut Random, fields: &mut Vec<Vec<u8>>) {
    let k = random.below(fields.len());
    match random.below(3) {
        0 => drop(fields.remove(k)),
        1 => fields.insert(k, fields[k].clone()),
        _ => fields.truncate(k),
    }
}

fn trailer(random: &mut Random, fields: &mut [Vec<u8>], place: usize) {
    let wrong = match random.below(7) {
        0 => format!("@{:05}", place + 1),
        1 => format!("@{place:04}"),
        2 => format!("@{place:06}"),
        3 => format!("{place:05}"),
        4 => format!("@{:05}", place.wrapping_sub(1) % 100_000),
        5 => format!("@{place:>5}"),
        _ => format!("@{place:05}\r"),
    };
    let last = fields.len() - 1;
    fields[last] = wrong.into_bytes();
}

/// A vector, a value or an order of a D line, wrong in length or in one character.
fn witness_field(random: &mut Random, fields: &mut [Vec<u8>]) {
    let k = random.between(4, 10);
    let field = &mut fields[k];
    let place = random.below(field.len());
    match random.below(4) {
        0 => drop(field.remove(place)),
        1 => field.insert(place, b'1'),
        2 => field[place] = *random.pick(b"Xb?23\0@"),
        _ => field[place] = *random.pick(b"01x9"),
    }
}

fn spaces(random: &mut Random, fields: &mut [Vec<u8>]) {
    let k = random.below(fields.len());
    let blank = *random.pick(b" \t\r");
    if random.one_in(2) {
        fields[k].push(blank);
    } else {
        fields[k].insert(0, blank);
    }
}
