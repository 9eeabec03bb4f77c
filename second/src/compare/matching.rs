//! What symbols match: every symbol with every value and change.

use super::evaluation::{compare_one, Evaluate};
use super::{same, Outcome, Stats};
use crate::area::encode;
use crate::symbol::{Edge, Level, Symbol};
use crate::table::{Kind, Output, Row, Table};
use crate::value::Value;

/// A level as its small letter, and a value's byte.
pub type LevelMatch<'a> = dyn Fn(u8, u8) -> bool + 'a;
/// An edge as the two bytes of a column, and the bytes of the change.
pub type EdgeMatch<'a> = dyn Fn([u8; 2], u8, u8) -> bool + 'a;

pub fn compare_matching(level: &LevelMatch, edge: &EdgeMatch) -> Outcome {
    let mut stats = Stats::default();
    for symbol in Symbol::all() {
        for value in Value::ALL {
            match symbol {
                Symbol::Level(l) => compare_level(&mut stats, l, value, level)?,
                Symbol::Edge(e) => compare_changes(&mut stats, e, value, edge)?,
            }
        }
    }
    Ok(stats)
}

fn compare_level(
    stats: &mut Stats,
    level: Level,
    value: Value,
    other: &LevelMatch,
) -> Result<(), super::Mismatch> {
    let input = || format!("level {level:?}, value {value:?}");
    let ours = level.matches(value);
    same(
        "level matching",
        0,
        input,
        &ours,
        &other(level.byte(), value.byte()),
    )?;
    stats.note(ours.to_string());
    Ok(())
}

fn compare_changes(
    stats: &mut Stats,
    edge: Edge,
    from: Value,
    other: &EdgeMatch,
) -> Result<(), super::Mismatch> {
    for to in Value::ALL {
        let input = || format!("edge {edge:?}, change {from:?} to {to:?}");
        let ours = edge.matches(from, to);
        let theirs = other(Symbol::Edge(edge).bytes(), from.byte(), to.byte());
        same("edge matching", 0, input, &ours, &theirs)?;
        stats.note(ours.to_string());
    }
    Ok(())
}

/// The same seen through evaluation alone: one row for each symbol, in the column or the state.
pub fn compare_matching_by_tables(other: &Evaluate) -> Outcome {
    let mut stats = Stats::default();
    let columns = Symbol::all()
        .into_iter()
        .map(|symbol| one_row(symbol, Level::Any));
    let states = Level::ALL
        .into_iter()
        .map(|level| one_row(Symbol::Edge(Edge::Star), level));
    for table in columns.chain(states) {
        let area = encode(&table);
        for case in 0..27 {
            let [from, to, old] = [case / 9, case / 3 % 3, case % 3].map(|k| Value::ALL[k].byte());
            stats.note(compare_one(0, &area, (&[from], &[to]), old, &[1], other)?);
        }
    }
    Ok(stats)
}

/// The output 1 shows a match, x shows none.
fn one_row(symbol: Symbol, state: Level) -> Table {
    let rows = vec![Row {
        symbols: vec![symbol],
        state,
        output: Output::Value(Value::One),
    }];
    Table {
        name: b"m".to_vec(),
        kind: Kind::Sequential,
        inputs: 1,
        start: Value::X,
        rows,
    }
}
