//! A row matches, one step, one order.

use crate::area;
use crate::refusal::{Refusal, NOT_WELL_FORMED, ORDER, VALUES};
use crate::symbol::Symbol;
use crate::table::{Row, Table};
use crate::value::{self, Value};

/// A change of one input, the others at their previous values.
struct Change<'v> {
    input: usize,
    from: Value,
    to: Value,
    previous: &'v [Value],
    old: Value,
}

impl Change<'_> {
    fn level_at(&self, column: usize) -> Value {
        if column == self.input {
            self.to
        } else {
            self.previous[column]
        }
    }

    fn matched_by(&self, row: &Row) -> bool {
        let columns = row.symbols.iter().enumerate();
        row.state.matches(self.old) && columns.into_iter().all(|(k, &s)| self.symbol_matches(k, s))
    }

    fn symbol_matches(&self, column: usize, symbol: Symbol) -> bool {
        match symbol {
            Symbol::Level(level) => level.matches(self.level_at(column)),
            Symbol::Edge(edge) => column == self.input && edge.matches(self.from, self.to),
        }
    }

    fn output(&self, table: &Table) -> Value {
        let matched = || table.rows.iter().filter(|row| self.matched_by(row));
        let level = matched().find(|row| row.edge_column().is_none());
        let row = level.or_else(|| matched().find(|row| row.edge_column().is_some()));
        row.map_or(Value::X, |row| row.output.after(self.old))
    }
}

/// One step; the input (counted from 0) then stands at its current value.
pub fn step(
    table: &Table,
    previous: &mut [Value],
    current: &[Value],
    old: Value,
    input: usize,
) -> Value {
    let (from, to) = (previous[input], current[input]);
    if from == to {
        return old;
    }
    let output = Change {
        input,
        from,
        to,
        previous,
        old,
    }
    .output(table);
    previous[input] = to;
    output
}

/// Evaluation along an order of input numbers, counted from 1.
pub fn along(
    table: &Table,
    previous: &[Value],
    current: &[Value],
    old: Value,
    order: &[u8],
) -> Value {
    let mut seen = previous.to_vec();
    order.iter().fold(old, |output, &number| {
        step(table, &mut seen, current, output, usize::from(number) - 1)
    })
}

/// The public call, on bytes.
pub fn evaluate(
    lent: &[u8],
    prev: &[u8],
    cur: &[u8],
    old: u8,
    order: &[u8],
) -> Result<u8, Refusal> {
    let table = area::decode(lent).ok_or(Refusal::new(NOT_WELL_FORMED, 0))?;
    let wrong = Refusal::new(VALUES, 0);
    let previous = lent_vector(prev, table.inputs).ok_or(wrong)?;
    let current = lent_vector(cur, table.inputs).ok_or(wrong)?;
    let old = Value::from_byte(old).ok_or(wrong)?;
    if let Some(index) = first_faulty(order, table.inputs) {
        return Err(Refusal::new(ORDER, index));
    }
    Ok(along(&table, &previous, &current, old, order).byte())
}

fn lent_vector(bytes: &[u8], inputs: usize) -> Option<Vec<Value>> {
    value::vector(bytes).filter(|vector| vector.len() == inputs)
}

fn first_faulty(order: &[u8], inputs: usize) -> Option<usize> {
    let outside = |number: u8| number == 0 || usize::from(number) > inputs;
    let mut numbers = order.iter().enumerate();
    numbers.position(|(index, number)| outside(*number) || order[..index].contains(number))
}
