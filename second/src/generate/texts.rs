//! Whole texts with a starting place: valid, damaged, and at the limits.

use super::damage;
use super::faults;
use super::independent;
use super::names;
use super::random::Random;
use super::source::Source;
use super::spacing::{blank, render, style, Style};
use super::tables;
use crate::limits::{INPUTS, NAME_BYTES, ROWS, TEXT_BYTES};
use crate::print;
use crate::table::Table;

#[derive(Clone, PartialEq, Eq, Debug)]
pub struct Case {
    pub text: Vec<u8>,
    pub start: usize,
}

/// Any case: valid, damaged with and without aim, at the limits, with other starting places.
pub fn case(random: &mut Random) -> Case {
    let text = match random.below(16) {
        0 => at_limits(random),
        1..=4 => library(random),
        5..=10 => {
            let number = random.between(2, 9) as u8;
            with_fault(random, number)
        }
        _ => damaged(random),
    };
    let start = start(random, &text);
    Case { text, start }
}

/// Mostly 0; sometimes after a primitive, anywhere, at the end or past it.
fn start(random: &mut Random, text: &[u8]) -> usize {
    match random.below(40) {
        0 => text.len(),
        1 => text.len() + 1 + random.below(3),
        2 => random.between(0, text.len()),
        3 => usize::MAX,
        4 => text
            .windows(12)
            .position(|word| word == b"endprimitive")
            .map_or(0, |at| at + 12),
        _ => 0,
    }
}

/// One of the many texts of a table.
pub fn of_table(random: &mut Random, table: &Table) -> Vec<u8> {
    let style = style(random);
    of_source(random, table, style, |_, _| ())
}

fn of_source(
    random: &mut Random,
    table: &Table,
    style: Style,
    spoil: impl Fn(&mut Random, &mut Source),
) -> Vec<u8> {
    let mut source = Source::of(random, table);
    spoil(random, &mut source);
    render(random, &source.tokens(), style)
}

/// A few valid primitives, blanks and comments around them, perhaps none at all.
pub fn library(random: &mut Random) -> Vec<u8> {
    let mut text = Vec::new();
    for _ in 0..random.below(4) {
        let table = small(random);
        text.extend(of_table(random, &table));
        text.push(b'\n');
    }
    for _ in 0..random.below(4) {
        blank(random, &mut text);
    }
    text
}

fn small(random: &mut Random) -> Table {
    let inputs = if random.one_in(4) {
        random.between(1, INPUTS)
    } else {
        random.between(1, 4)
    };
    tables::sized(random, inputs)
}

/// Damage to tokens or bytes of a valid text.
pub fn damaged(random: &mut Random) -> Vec<u8> {
    if random.one_in(2) {
        let mut text = library(random);
        damage::bytes(random, &mut text);
        return text;
    }
    let table = small(random);
    let mut tokens = Source::of(random, &table).tokens();
    damage::tokens(random, &mut tokens);
    let style = style(random);
    render(random, &tokens, style)
}

/// A text aimed at a refusal of this number, 1 to 9, perhaps behind valid primitives.
pub fn with_fault(random: &mut Random, number: u8) -> Vec<u8> {
    let table = small(random);
    let mut text = match number {
        1 | 2 => of_table(random, &table),
        _ => {
            let style = style(random);
            of_source(random, &table, style, |random, source| {
                faults::aim(random, source, number)
            })
        }
    };
    match number {
        1 => faults::too_long(random, &mut text),
        2 => faults::unclosed_comment(random, &mut text),
        _ => {}
    }
    text
}

/// Largest sizes, and one more: rows, inputs, name, text.
pub fn at_limits(random: &mut Random) -> Vec<u8> {
    match random.below(7) {
        0 => largest(random),
        1 => one_more_input(random),
        2 => one_more_row(random),
        3 => names_of(random, NAME_BYTES),
        4 => names_of(random, NAME_BYTES + 1),
        5 => of_length(random, TEXT_BYTES),
        _ => of_length(random, TEXT_BYTES + 1),
    }
}

pub fn largest(random: &mut Random) -> Vec<u8> {
    let table = independent::same_steps(random, INPUTS, ROWS);
    of_table(random, &table)
}

pub fn one_more_input(random: &mut Random) -> Vec<u8> {
    let table = independent::combinational(random, INPUTS, 2);
    of_source(random, &table, Style::Plain, |_, source| {
        source.ports.push(b"tenth_input".to_vec())
    })
}

pub fn one_more_row(random: &mut Random) -> Vec<u8> {
    let inputs = random.between(1, INPUTS);
    let table = independent::level_rows(random, inputs, ROWS);
    of_source(random, &table, Style::Plain, |_, source| {
        source.rows.push(source.rows[0].clone())
    })
}

/// All names of one length.
pub fn names_of(random: &mut Random, length: usize) -> Vec<u8> {
    let table = small(random);
    let mut text = print::text(&Table {
        name: b"NAME".to_vec(),
        ..table
    });
    let place = text
        .windows(4)
        .position(|word| word == b"NAME")
        .expect("printed above");
    text.splice(place..place + 4, names::of_length(random, length));
    text
}

/// A sound text of exactly so many bytes.
pub fn of_length(random: &mut Random, length: usize) -> Vec<u8> {
    let mut text = library(random);
    faults::pad(random, &mut text, length);
    text
}
