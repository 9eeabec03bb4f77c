//! When two rows contradict.

use crate::symbol::{Edge, Level, Symbol};
use crate::table::Row;
use crate::value::Value;

/// Both level rows, or both edges in one column; some values match both; written outputs differ.
pub fn contradict(a: &Row, b: &Row) -> bool {
    a.output != b.output && meet(a, b)
}

/// Whether both rows are of one group and some values match both.
pub fn meet(a: &Row, b: &Row) -> bool {
    a.edge_column() == b.edge_column()
        && levels_meet(a.state, b.state)
        && a.symbols
            .iter()
            .zip(&b.symbols)
            .all(|(&s, &t)| symbols_meet(s, t))
}

fn symbols_meet(s: Symbol, t: Symbol) -> bool {
    match (s, t) {
        (Symbol::Level(s), Symbol::Level(t)) => levels_meet(s, t),
        (Symbol::Edge(s), Symbol::Edge(t)) => edges_meet(s, t),
        _ => false,
    }
}

fn levels_meet(s: Level, t: Level) -> bool {
    Value::ALL
        .iter()
        .any(|&value| s.matches(value) && t.matches(value))
}

fn edges_meet(s: Edge, t: Edge) -> bool {
    let both = |from, to| s.matches(from, to) && t.matches(from, to);
    Value::ALL
        .iter()
        .any(|&from| Value::ALL.iter().any(|&to| both(from, to)))
}
