//! A table as a record, free of bytes.

use crate::contradiction::contradict;
use crate::limits::{INPUTS, ROWS};
use crate::name::is_name;
use crate::symbol::{Level, Symbol};
use crate::value::Value;

#[derive(Clone, Copy, PartialEq, Eq, Debug)]
pub enum Kind {
    Combinational,
    Sequential,
}

#[derive(Clone, Copy, PartialEq, Eq, Debug)]
pub enum Output {
    Value(Value),
    Old,
}

impl Output {
    pub fn byte(self) -> u8 {
        match self {
            Output::Value(value) => value.byte(),
            Output::Old => b'-',
        }
    }

    pub fn from_byte(byte: u8) -> Option<Output> {
        if byte == b'-' {
            return Some(Output::Old);
        }
        Value::from_byte(byte).map(Output::Value)
    }

    pub fn after(self, old: Value) -> Value {
        match self {
            Output::Value(value) => value,
            Output::Old => old,
        }
    }
}

#[derive(Clone, PartialEq, Eq, Debug)]
pub struct Row {
    pub symbols: Vec<Symbol>,
    pub state: Level,
    pub output: Output,
}

impl Row {
    pub fn edge_column(&self) -> Option<usize> {
        self.symbols.iter().position(|symbol| symbol.is_edge())
    }

    pub fn edges(&self) -> usize {
        self.symbols
            .iter()
            .filter(|symbol| symbol.is_edge())
            .count()
    }
}

#[derive(Clone, PartialEq, Eq, Debug)]
pub struct Table {
    pub name: Vec<u8>,
    pub kind: Kind,
    pub inputs: usize,
    pub start: Value,
    pub rows: Vec<Row>,
}

impl Table {
    /// Whether reading some text could have given this table.
    pub fn is_valid(&self) -> bool {
        is_name(&self.name)
            && (1..=INPUTS).contains(&self.inputs)
            && (1..=ROWS).contains(&self.rows.len())
            && (self.kind == Kind::Sequential || self.start == Value::X)
            && self.rows.iter().all(|row| self.row_is_valid(row))
            && !self.contradicts_itself()
    }

    fn row_is_valid(&self, row: &Row) -> bool {
        row.symbols.len() == self.inputs
            && row.edges() <= 1
            && !row.symbols.iter().any(|symbol| is_empty_edge(*symbol))
            && (self.kind == Kind::Sequential || is_combinational(row))
    }

    fn contradicts_itself(&self) -> bool {
        let mut later = self.rows.iter().enumerate();
        later.any(|(k, row)| {
            self.rows[..k]
                .iter()
                .any(|earlier| contradict(earlier, row))
        })
    }
}

fn is_empty_edge(symbol: Symbol) -> bool {
    matches!(symbol, Symbol::Edge(edge) if edge.matches_nothing())
}

fn is_combinational(row: &Row) -> bool {
    row.edges() == 0 && row.state == Level::Any && row.output != Output::Old
}
