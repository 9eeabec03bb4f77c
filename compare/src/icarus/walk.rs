//! A primitive and a walk over its inputs, one changed at a time.

use second::generate::random::Random;
use second::generate::{tables, vectors};
use second::symbol::{Edge, Level, Symbol};
use second::table::{Row, Table};

pub struct Walk {
    pub table: Table,
    /// Rows that Icarus cannot take.
    pub left_out: usize,
    /// Input, counted from 0, and its new value; all inputs start at x.
    pub changes: Vec<(usize, u8)>,
}

impl Walk {
    pub fn new(random: &mut Random, steps: usize) -> Walk {
        loop {
            let inputs = random.between(1, 6);
            let mut table = tables::sized(random, inputs);
            let rows = table.rows.len();
            table.rows.retain(|row| !crashes_icarus(row));
            if !table.rows.is_empty() {
                return Walk {
                    left_out: rows - table.rows.len(),
                    changes: changes(random, inputs, steps),
                    table,
                };
            }
        }
    }
}

/// Icarus 11 crashes on pairs whose second place is b, and on `(b?)`.
fn crashes_icarus(row: &Row) -> bool {
    row.symbols.iter().any(|symbol| {
        matches!(
            symbol,
            Symbol::Edge(Edge::Pair(_, Level::B) | Edge::Pair(Level::B, Level::Any))
        )
    })
}

fn changes(random: &mut Random, inputs: usize, steps: usize) -> Vec<(usize, u8)> {
    let mut now = vec![b'x'; inputs];
    let mut changes = Vec::new();
    while changes.len() < steps {
        let (input, value) = (random.below(inputs), vectors::value(random));
        if now[input] != value {
            now[input] = value;
            changes.push((input, value));
        }
    }
    changes
}
