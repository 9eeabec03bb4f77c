//! Independent tables up to the largest size, and tables that miss independence by one row.

use super::random::Random;
use super::tables::{add_agreeing, empty, row};
use crate::contradiction::contradict;
use crate::limits::ROWS;
use crate::symbol::{Edge, Level, Symbol};
use crate::table::{Kind, Output, Row, Table};
use crate::value::Value;

pub fn any(random: &mut Random, inputs: usize) -> Table {
    let rows = if random.one_in(2) {
        ROWS
    } else {
        random.between(1, ROWS)
    };
    match random.below(3) {
        0 => combinational(random, inputs, rows),
        1 => level_rows(random, inputs, rows),
        _ => same_steps(random, inputs, rows),
    }
}

/// One row of an independent table given another output.
pub fn nearly(random: &mut Random, inputs: usize) -> Table {
    let mut table = any(random, inputs);
    let k = random.below(table.rows.len());
    let mut changed = table.rows[k].clone();
    changed.output = Output::Value(*random.pick(&Value::ALL));
    let others = table
        .rows
        .iter()
        .enumerate()
        .filter(|(other, _)| *other != k);
    if !others.into_iter().any(|(_, row)| contradict(row, &changed)) {
        table.rows[k] = changed;
    }
    table
}

/// Its last step alone decides, so every combinational table is independent.
pub fn combinational(random: &mut Random, inputs: usize, rows: usize) -> Table {
    let mut table = empty(random, Kind::Combinational, inputs);
    grow(random, &mut table, rows, |random, kind| {
        row(random, kind, inputs, 0)
    });
    table
}

/// Level rows that ask for no state and keep no output act as a combinational table does.
pub fn level_rows(random: &mut Random, inputs: usize, rows: usize) -> Table {
    let mut table = empty(random, Kind::Sequential, inputs);
    grow(random, &mut table, rows, |random, _| {
        row(random, Kind::Combinational, inputs, 0)
    });
    table
}

fn grow(
    random: &mut Random,
    table: &mut Table,
    rows: usize,
    make: impl Fn(&mut Random, Kind) -> Row,
) {
    while table.rows.len() < rows {
        let row = make(random, table.kind);
        add_agreeing(table, row);
    }
}

/// Every change of every input does the same to the old output, so no order matters.
pub fn same_steps(random: &mut Random, inputs: usize, rows: usize) -> Table {
    let mut table = empty(random, Kind::Sequential, inputs);
    let states = [Level::Zero, Level::One, Level::X];
    let outputs = states.map(|_| output(random));
    for k in 0..inputs {
        for (state, output) in states.into_iter().zip(outputs) {
            table.rows.push(every_change(inputs, k, state, output));
        }
    }
    split_until(random, &mut table, rows);
    random.shuffle(&mut table.rows);
    table
}

fn output(random: &mut Random) -> Output {
    match random.below(4) {
        0 => Output::Old,
        _ => Output::Value(*random.pick(&Value::ALL)),
    }
}

fn every_change(inputs: usize, k: usize, state: Level, output: Output) -> Row {
    let mut symbols = vec![Symbol::Level(Level::Any); inputs];
    symbols[k] = Symbol::Edge(Edge::Star);
    Row {
        symbols,
        state,
        output,
    }
}

/// Splitting rows at different columns makes nearly every set of matching rows a different one.
fn split_until(random: &mut Random, table: &mut Table, rows: usize) {
    for _ in 0..20 * rows {
        let k = random.below(table.rows.len());
        let column = random.below(table.inputs);
        let parts = parts(random, table.rows[k].symbols[column]);
        if table.rows.len() + parts.len() - 1 > rows {
            continue;
        }
        let whole = table.rows.swap_remove(k);
        for part in parts {
            let mut row = whole.clone();
            row.symbols[column] = part;
            table.rows.push(row);
        }
    }
}

/// Symbols that together match what the given one matches.
fn parts(random: &mut Random, symbol: Symbol) -> Vec<Symbol> {
    use Level::{Any, One, Zero, B, X};
    let levels = |list: &[Level]| list.iter().map(|&level| Symbol::Level(level)).collect();
    match symbol {
        Symbol::Level(Any) if random.one_in(2) => levels(&[B, X]),
        Symbol::Level(Any) => levels(&[Zero, One, X]),
        Symbol::Level(B) => levels(&[Zero, One]),
        Symbol::Edge(Edge::Star) if random.one_in(2) => edges(&[Edge::P, Edge::N]),
        Symbol::Edge(Edge::Star) => edges(&[Edge::Pair(Any, B), Edge::Pair(Any, X)]),
        Symbol::Edge(Edge::P) => edges(&[Edge::R, Edge::Pair(Zero, X), Edge::Pair(X, One)]),
        Symbol::Edge(Edge::N) => edges(&[Edge::F, Edge::Pair(One, X), Edge::Pair(X, Zero)]),
        other => vec![other],
    }
}

fn edges(list: &[Edge]) -> Vec<Symbol> {
    list.iter().map(|&edge| Symbol::Edge(edge)).collect()
}
