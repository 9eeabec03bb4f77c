//! Tables of asked sizes.

use second::generate::independent;
use second::generate::random::Random;
use second::generate::tables::{add_agreeing, empty, row};
use second::judge::{fast, Finding};
use second::symbol::{Edge, Level, Symbol};
use second::table::{Kind, Output, Row, Table};
use second::value::Value;

pub type Make = fn(usize, usize) -> Table;

/// Judged I; the last one's rows make nearly every set of matching rows a different one.
pub const INDEPENDENT: [(&str, Make); 3] = [
    ("combinational", |inputs, rows| {
        independent::combinational(&mut Random::new(7), inputs, rows)
    }),
    ("level rows", |inputs, rows| {
        independent::level_rows(&mut Random::new(7), inputs, rows)
    }),
    ("same steps", |inputs, rows| {
        independent::same_steps(&mut Random::new(7), inputs, rows)
    }),
];

/// Judged D: rows by chance, and one disagreement that the search meets last.
pub const DEPENDENT: [(&str, Make); 2] = [("by chance", by_chance), ("found last", found_last)];

fn by_chance(inputs: usize, rows: usize) -> Table {
    let mut seed = 1;
    loop {
        let table = rows_by_chance(&mut Random::new(seed), inputs, rows);
        if fast::finding(&table) != Finding::Independent {
            return table;
        }
        seed += 1;
    }
}

fn rows_by_chance(random: &mut Random, inputs: usize, rows: usize) -> Table {
    let mut table = empty(random, Kind::Sequential, inputs);
    while table.rows.len() < rows {
        let row = row(random, Kind::Sequential, inputs, 2);
        add_agreeing(&mut table, row);
    }
    table
}

/// The last two inputs disagree, and only where all others are x; at least 2 n + 4 rows.
fn found_last(inputs: usize, rows: usize) -> Table {
    let last = inputs - 1;
    let mut table = empty(&mut Random::new(7), Kind::Sequential, inputs);
    for (level, value) in [(Level::Zero, Value::Zero), (Level::One, Value::One)] {
        let mut symbols = vec![Symbol::Level(Level::X); inputs];
        symbols[last - 1] = Symbol::Level(level);
        symbols[last] = Symbol::Edge(Edge::R);
        table.rows.push(with_output(symbols, Output::Value(value)));
    }
    for k in 0..last - 1 {
        let mut symbols = any_but(inputs, last, Edge::R);
        symbols[k] = Symbol::Level(Level::B);
        table.rows.push(with_output(symbols, Output::Old));
    }
    let mut unknown = any_but(inputs, last, Edge::R);
    unknown[last - 1] = Symbol::Level(Level::X);
    table.rows.push(with_output(unknown, Output::Old));
    let rest = [
        Edge::N,
        Edge::Pair(Level::Zero, Level::X),
        Edge::Pair(Level::X, Level::One),
    ];
    for edge in rest {
        let symbols = any_but(inputs, last, edge);
        table.rows.push(with_output(symbols, Output::Old));
    }
    for k in 0..last {
        let symbols = any_but(inputs, k, Edge::Star);
        table.rows.push(with_output(symbols, Output::Old));
    }
    while table.rows.len() < rows {
        let again = table.rows[table.rows.len() % (2 * inputs)].clone();
        table.rows.push(again);
    }
    table
}

fn any_but(inputs: usize, k: usize, edge: Edge) -> Vec<Symbol> {
    let mut symbols = vec![Symbol::Level(Level::Any); inputs];
    symbols[k] = Symbol::Edge(edge);
    symbols
}

fn with_output(symbols: Vec<Symbol>, output: Output) -> Row {
    Row {
        symbols,
        state: Level::Any,
        output,
    }
}
