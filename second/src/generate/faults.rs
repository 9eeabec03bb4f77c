//! Damage with aim: a source or a text is given a fault of a certain number.

use super::names;
use super::random::Random;
use super::source::{Declaration, Source, SourceRow};
use crate::limits::{INPUTS, ROWS, TEXT_BYTES};

/// Aims at one of the numbers 3 to 9; now and then an earlier fault is met instead.
pub fn aim(random: &mut Random, source: &mut Source, number: u8) {
    match number {
        3 => not_expected(random, source),
        4 => name_too_long(random, source),
        5 => ports(random, source),
        6 => too_many(random, source),
        7 => columns(random, source),
        8 => symbol(random, source),
        _ => contradiction(random, source),
    }
}

/// A text too long: sound at its beginning, blanks or comments behind.
pub fn too_long(random: &mut Random, text: &mut Vec<u8>) {
    let length = TEXT_BYTES
        + 1
        + if random.one_in(2) {
            0
        } else {
            random.below(300)
        };
    pad(random, text, length);
}

/// Fills up a text to a length, seen from its end: blanks, or one comment to the end.
pub fn pad(random: &mut Random, text: &mut Vec<u8>, length: usize) {
    if random.one_in(2) {
        text.extend(b" //");
    }
    let byte = *random.pick(b" /\t\r");
    text.resize(
        length.max(text.len()),
        if text.ends_with(b"//") { byte } else { b' ' },
    );
}

/// Opens a comment anywhere and closes none behind it.
pub fn unclosed_comment(random: &mut Random, text: &mut Vec<u8>) {
    let place = random.between(0, text.len());
    text.splice(place..place, *b"/*");
    for k in place + 2..text.len() - 1 {
        if text[k..k + 2] == *b"*/" {
            text[k + 1] = b'*';
        }
    }
}

fn not_expected(random: &mut Random, source: &mut Source) {
    let wrong: [&[u8]; 9] = [
        b"x", b"2", b"01", b"1'c0", b"1'b2", b"1 'b0", b"1' b0", b"1'b0x", b"1'",
    ];
    let row = random.below(source.rows.len());
    match random.below(8) {
        0 => source.initial = Some((source.ports[0].clone(), random.pick(&wrong).to_vec())),
        1 => source.rows.clear(),
        2 => source.ports.truncate(1),
        3 => source.rows[row].state = Some(Vec::new()),
        4 => source.rows[row].output.clear(),
        5 => source.rows[row].output.extend(b":0"),
        6 => source.rows[row].output.extend(b"0"),
        _ => {
            let column = random.below(source.rows[row].columns.len());
            source.rows[row].columns[column] = stray(random);
        }
    }
}

fn stray(random: &mut Random) -> Vec<u8> {
    let pool: [&[u8]; 12] = [
        b"((01)", b"(0)", b"()", b"(01?)", b"(0:1)", b"(0;1)", b"z", b";", b"2", b"'", b"(0z)",
        b")",
    ];
    random.pick(&pool).to_vec()
}

/// In one of the four places where a name may stand.
fn name_too_long(random: &mut Random, source: &mut Source) {
    let long = names::too_long(random);
    match random.below(4) {
        0 => source.name = long,
        1 => {
            let port = random.below(source.ports.len());
            source.ports[port] = long;
        }
        2 if source.initial.is_some() => source.initial = Some((long, b"0".to_vec())),
        _ => {
            let k = random.below(source.declarations.len());
            *any_name(random, &mut source.declarations[k]) = long;
        }
    }
}

fn any_name<'d>(random: &mut Random, declaration: &'d mut Declaration) -> &'d mut Vec<u8> {
    match declaration {
        Declaration::Output(name) | Declaration::Reg(name) => name,
        Declaration::Input(names) => {
            let k = random.below(names.len());
            &mut names[k]
        }
    }
}

fn ports(random: &mut Random, source: &mut Source) {
    let port = random.pick(&source.ports).clone();
    let k = random.below(source.declarations.len());
    match random.below(6) {
        0 => {
            let later = random.between(1, source.ports.len() - 1);
            source.ports[later] = source.ports[random.below(later)].clone();
        }
        1 => *any_name(random, &mut source.declarations[k]) = port,
        2 => *any_name(random, &mut source.declarations[k]) = names::name(random),
        3 => drop(source.declarations.remove(k)),
        4 if source.initial.is_some() => source.initial = Some((port, b"1".to_vec())),
        _ => {
            let again = any_declaration(random, port);
            source.declarations.insert(k, again);
        }
    }
}

fn any_declaration(random: &mut Random, name: Vec<u8>) -> Declaration {
    match random.below(3) {
        0 => Declaration::Output(name),
        1 => Declaration::Reg(name),
        _ => Declaration::Input(vec![name]),
    }
}

fn too_many(random: &mut Random, source: &mut Source) {
    if random.one_in(2) {
        return too_many_rows(random, source);
    }
    while source.ports.len() < INPUTS + 2 || random.one_in(3) {
        let name = names::name(random);
        if !source.ports.contains(&name) {
            source.ports.push(name);
        }
    }
}

fn too_many_rows(random: &mut Random, source: &mut Source) {
    while source.rows.len() < ROWS + 1 || random.one_in(3) {
        let row = source.rows[random.below(source.rows.len())].clone();
        source.rows.push(row);
    }
    if random.one_in(4) {
        source.rows[ROWS].columns.clear();
    }
}

fn columns(random: &mut Random, source: &mut Source) {
    let row = random.below(source.rows.len());
    let columns = &mut source.rows[row].columns;
    match random.below(4) {
        0 => columns.clear(),
        1 => columns.truncate(columns.len() - 1),
        _ => {
            let extra: [&[u8]; 8] = [b"0", b"?", b"X", b"*", b"-", b"(01)", b"(", b"r"];
            let at_end = columns.len();
            columns.insert(at_end, random.pick(&extra).to_vec());
        }
    }
}

fn symbol(random: &mut Random, source: &mut Source) {
    let k = random.below(source.rows.len());
    let row = &mut source.rows[k];
    let column = random.below(row.columns.len());
    match random.below(5) {
        0 => row.columns[column] = wrong_column(random),
        1 => row
            .columns
            .iter_mut()
            .for_each(|column| *column = b"R".to_vec()),
        2 if row.state.is_some() => row.state = Some(wrong_state(random)),
        _ => row.output = wrong_output(random),
    }
}

fn wrong_column(random: &mut Random) -> Vec<u8> {
    let pool: [&[u8]; 9] = [
        b"-", b"(00)", b"(11)", b"(xX)", b"(r0)", b"(0-)", b"(*1)", b"(XX)", b"(0p)",
    ];
    random.pick(&pool).to_vec()
}

fn wrong_state(random: &mut Random) -> Vec<u8> {
    let pool: [&[u8]; 8] = [b"-", b"r", b"F", b"*", b"(01)", b"(??)", b"n", b"(00)"];
    random.pick(&pool).to_vec()
}

fn wrong_output(random: &mut Random) -> Vec<u8> {
    let pool: [&[u8]; 8] = [b"b", b"?", b"R", b"*", b"(01)", b"p", b"(1?)", b"B"];
    random.pick(&pool).to_vec()
}

/// A copy of some row with another output, somewhere behind it.
fn contradiction(random: &mut Random, source: &mut Source) {
    source.rows.truncate(ROWS - 1);
    let k = random.below(source.rows.len());
    let mut row: SourceRow = source.rows[k].clone();
    row.output = match row.output[..] {
        [b'0'] => b"X".to_vec(),
        [b'1'] => b"0".to_vec(),
        _ => b"1".to_vec(),
    };
    let place = random.between(k + 1, source.rows.len());
    source.rows.insert(place, row);
}
