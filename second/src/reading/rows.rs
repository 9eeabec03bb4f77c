//! The rows of a table, up to and with `endtable`.

use super::cursor::Cursor;
use super::symbols::{self, is_table_symbol};
use crate::contradiction::contradict;
use crate::limits::ROWS;
use crate::refusal::{Refusal, COLUMNS, CONTRADICTION, NOT_EXPECTED, TOO_MANY};
use crate::symbol::{Level, Symbol};
use crate::table::{Kind, Row};

pub fn read(cursor: &mut Cursor, kind: Kind, inputs: usize) -> Result<Vec<Row>, Refusal> {
    let mut rows = Vec::new();
    while begins_row(cursor)? {
        if rows.len() == ROWS {
            return Err(cursor.refuse(TOO_MANY));
        }
        let row = row(cursor, kind, inputs, &rows)?;
        rows.push(row);
    }
    if rows.is_empty() {
        return Err(cursor.refuse(NOT_EXPECTED));
    }
    cursor.expect_word(b"endtable")?;
    Ok(rows)
}

fn begins_row(cursor: &mut Cursor) -> Result<bool, Refusal> {
    cursor.skip_blanks()?;
    Ok(cursor
        .byte()
        .is_some_and(|byte| byte == b':' || is_table_symbol(byte)))
}

fn row(cursor: &mut Cursor, kind: Kind, inputs: usize, earlier: &[Row]) -> Result<Row, Refusal> {
    let first = cursor.at();
    let symbols = columns(cursor, kind, inputs)?;
    let state = match kind {
        Kind::Combinational => Level::Any,
        Kind::Sequential => state(cursor)?,
    };
    let output = symbols::output(cursor, kind)?;
    cursor.expect(b';')?;
    let row = Row {
        symbols,
        state,
        output,
    };
    if earlier.iter().any(|other| contradict(other, &row)) {
        return Err(Refusal::new(CONTRADICTION, first));
    }
    Ok(row)
}

fn state(cursor: &mut Cursor) -> Result<Level, Refusal> {
    let level = symbols::state(cursor)?;
    cursor.expect(b':')?;
    Ok(level)
}

/// All input columns and the colon behind them.
fn columns(cursor: &mut Cursor, kind: Kind, inputs: usize) -> Result<Vec<Symbol>, Refusal> {
    let mut symbols: Vec<Symbol> = Vec::new();
    loop {
        cursor.skip_blanks()?;
        let full = symbols.len() == inputs;
        match cursor.byte() {
            Some(b':') if full => {
                cursor.advance();
                return Ok(symbols);
            }
            Some(b':') => return Err(cursor.refuse(COLUMNS)),
            Some(byte) if full && is_table_symbol(byte) => return Err(cursor.refuse(COLUMNS)),
            _ => {
                let may_be_edge = kind == Kind::Sequential && !symbols.iter().any(|s| s.is_edge());
                symbols.push(symbols::column(cursor, may_be_edge)?);
            }
        }
    }
}
