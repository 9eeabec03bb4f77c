//! Tables, made directly.

use super::independent;
use super::names;
use super::random::Random;
use crate::contradiction::{contradict, meet};
use crate::limits::{INPUTS, ROWS};
use crate::symbol::{pairs, Edge, Level, Symbol};
use crate::table::{Kind, Output, Row, Table};
use crate::value::Value;

/// Any well-formed table: sizes from the smallest to the largest, a good share independent.
pub fn table(random: &mut Random) -> Table {
    let inputs = random.between(1, INPUTS);
    sized(random, inputs)
}

/// Any well-formed table of so many inputs.
pub fn sized(random: &mut Random, inputs: usize) -> Table {
    match random.below(8) {
        0 => independent::any(random, inputs),
        1 => independent::nearly(random, inputs),
        2..=4 => holding(random, inputs),
        _ => by_chance(random, inputs),
    }
}

/// Rows by chance that mostly keep the old output elsewhere, as latches and flip-flops do.
pub fn holding(random: &mut Random, inputs: usize) -> Table {
    let mut table = empty(random, Kind::Sequential, inputs);
    let edges = random.below(3);
    for _ in 0..random.between(1, 8) {
        let row = row(random, Kind::Sequential, inputs, edges);
        add_agreeing(&mut table, row);
    }
    for k in 0..inputs {
        for edge in [Edge::Star, Edge::P, Edge::N, Edge::R, Edge::F] {
            add_unless_contradicting(&mut table, hold(inputs, k, edge));
        }
    }
    table
}

fn hold(inputs: usize, k: usize, edge: Edge) -> Row {
    let mut symbols = vec![Symbol::Level(Level::Any); inputs];
    symbols[k] = Symbol::Edge(edge);
    Row {
        symbols,
        state: Level::Any,
        output: Output::Old,
    }
}

/// Rows by chance, those left out that would contradict.
pub fn by_chance(random: &mut Random, inputs: usize) -> Table {
    let kind = if random.one_in(4) {
        Kind::Combinational
    } else {
        Kind::Sequential
    };
    let mut table = empty(random, kind, inputs);
    let rows = count_of_rows(random);
    let edges = random.below(4);
    for _ in 0..4 * rows {
        if table.rows.len() < rows {
            let row = row(random, kind, inputs, edges);
            add_agreeing(&mut table, row);
        }
    }
    table
}

fn count_of_rows(random: &mut Random) -> usize {
    match random.below(8) {
        0 => ROWS,
        1 => random.between(1, ROWS),
        _ => random.between(1, 12),
    }
}

/// A table with no row yet.
pub fn empty(random: &mut Random, kind: Kind, inputs: usize) -> Table {
    let start = match kind {
        Kind::Combinational => Value::X,
        Kind::Sequential => *random.pick(&Value::ALL),
    };
    Table {
        name: names::name(random),
        kind,
        inputs,
        start,
        rows: Vec::new(),
    }
}

/// Takes over the output of an earlier row that it meets, and is left out if it still contradicts.
pub fn add_agreeing(table: &mut Table, mut row: Row) {
    if let Some(earlier) = table.rows.iter().find(|earlier| meet(earlier, &row)) {
        row.output = earlier.output;
    }
    add_unless_contradicting(table, row);
}

fn add_unless_contradicting(table: &mut Table, row: Row) {
    if !table.rows.iter().any(|earlier| contradict(earlier, &row)) {
        table.rows.push(row);
    }
}

/// A row by chance; `edges` of 4 sequential rows have an edge.
pub fn row(random: &mut Random, kind: Kind, inputs: usize, edges: usize) -> Row {
    let wide = random.between(1, 4);
    let mut symbols: Vec<Symbol> = (0..inputs)
        .map(|_| Symbol::Level(level(random, wide)))
        .collect();
    let mut state = Level::Any;
    let mut output = Output::Value(*random.pick(&Value::ALL));
    if kind == Kind::Sequential {
        if random.below(4) < edges {
            symbols[random.below(inputs)] = Symbol::Edge(edge(random));
        }
        state = level(random, 3);
        if random.one_in(3) {
            output = Output::Old;
        }
    }
    Row {
        symbols,
        state,
        output,
    }
}

/// One of the five levels, `?` the more often the wider.
pub fn level(random: &mut Random, wide: usize) -> Level {
    if random.below(5) < wide {
        return Level::Any;
    }
    *random.pick(&Level::ALL)
}

pub fn edge(random: &mut Random) -> Edge {
    if random.one_in(2) {
        return *random.pick(&Edge::LETTERS);
    }
    *random.pick(&pairs())
}
