//! Table symbols, one byte at a time, in columns, pairs, states and outputs.

use super::cursor::Cursor;
use crate::refusal::{Refusal, NOT_EXPECTED, SYMBOL};
use crate::symbol::{Edge, Level, Symbol};
use crate::table::{Kind, Output};

pub fn is_table_symbol(byte: u8) -> bool {
    byte == b'(' || is_single(byte.to_ascii_lowercase())
}

fn is_single(small: u8) -> bool {
    b"01xb?rfpn*-".contains(&small)
}

/// The next byte in small letters, if it is a table symbol; otherwise 3.
fn symbol_byte(cursor: &mut Cursor) -> Result<u8, Refusal> {
    cursor.skip_blanks()?;
    match cursor.byte() {
        Some(byte) if is_table_symbol(byte) => Ok(byte.to_ascii_lowercase()),
        _ => Err(cursor.refuse(NOT_EXPECTED)),
    }
}

/// One column; a pair is judged as a whole only once its `)` is read.
pub fn column(cursor: &mut Cursor, may_be_edge: bool) -> Result<Symbol, Refusal> {
    let small = symbol_byte(cursor)?;
    let place = cursor.at();
    let symbol = if small == b'(' {
        Some(Symbol::Edge(pair(cursor)?))
    } else {
        cursor.advance();
        Symbol::from_bytes([small, 0])
    };
    match symbol {
        Some(Symbol::Level(level)) => Ok(Symbol::Level(level)),
        Some(Symbol::Edge(edge)) if may_be_edge && !edge.matches_nothing() => {
            Ok(Symbol::Edge(edge))
        }
        _ => Err(Refusal::new(SYMBOL, place)),
    }
}

fn pair(cursor: &mut Cursor) -> Result<Edge, Refusal> {
    cursor.advance();
    let v = pair_level(cursor)?;
    let w = pair_level(cursor)?;
    cursor.expect(b')')?;
    Ok(Edge::Pair(v, w))
}

fn pair_level(cursor: &mut Cursor) -> Result<Level, Refusal> {
    let small = symbol_byte(cursor)?;
    if small == b'(' {
        return Err(cursor.refuse(NOT_EXPECTED));
    }
    let level = Level::from_byte(small).ok_or(cursor.refuse(SYMBOL))?;
    cursor.advance();
    Ok(level)
}

pub fn state(cursor: &mut Cursor) -> Result<Level, Refusal> {
    single(cursor, Level::from_byte)
}

pub fn output(cursor: &mut Cursor, kind: Kind) -> Result<Output, Refusal> {
    single(cursor, |small| {
        let output = Output::from_byte(small)?;
        (kind == Kind::Sequential || output != Output::Old).then_some(output)
    })
}

/// A field of one symbol; a pair is read to its end and then refused as a whole.
fn single<T>(cursor: &mut Cursor, take: impl Fn(u8) -> Option<T>) -> Result<T, Refusal> {
    let small = symbol_byte(cursor)?;
    let wrong = cursor.refuse(SYMBOL);
    if small == b'(' {
        pair(cursor)?;
        return Err(wrong);
    }
    let taken = take(small).ok_or(wrong)?;
    cursor.advance();
    Ok(taken)
}
