//! Reading one primitive: text, starting place and area in, one answer out.

mod cursor;
mod declarations;
mod header;
mod rows;
mod symbols;

use crate::area;
use crate::limits::TEXT_BYTES;
use crate::refusal::{Refusal, NOT_EXPECTED, NOT_WELL_FORMED, TEXT_TOO_LONG};
use crate::table::Table;
use cursor::Cursor;

#[derive(Clone, Copy, PartialEq, Eq, Debug)]
pub enum Answer {
    /// A table stands in the area; the place is the one after `endprimitive`.
    Table(usize),
    End,
    Refused(Refusal),
}

/// What reading finds before anything is written.
#[derive(Clone, PartialEq, Eq, Debug)]
pub enum Found {
    Table(Table, usize),
    End,
}

/// The public call: it writes the whole area for a table and no byte otherwise.
pub fn read(text: &[u8], start: usize, lent: &mut [u8]) -> Answer {
    if lent.len() != area::SIZE {
        return Answer::Refused(Refusal::new(NOT_WELL_FORMED, 0));
    }
    match find(text, start) {
        Err(refusal) => Answer::Refused(refusal),
        Ok(Found::End) => Answer::End,
        Ok(Found::Table(table, next)) => {
            lent.copy_from_slice(&area::encode(&table));
            Answer::Table(next)
        }
    }
}

/// Reading as a function of text and start alone.
pub fn find(text: &[u8], start: usize) -> Result<Found, Refusal> {
    if text.len() > TEXT_BYTES {
        return Err(Refusal::new(TEXT_TOO_LONG, TEXT_BYTES));
    }
    if start > text.len() {
        return Err(Refusal::new(NOT_EXPECTED, text.len()));
    }
    let mut cursor = Cursor::new(text, start);
    cursor.skip_blanks()?;
    if cursor.at_end() {
        return Ok(Found::End);
    }
    let table = primitive(&mut cursor)?;
    Ok(Found::Table(table, cursor.at()))
}

fn primitive(cursor: &mut Cursor) -> Result<Table, Refusal> {
    let header = header::read(cursor)?;
    let declared = declarations::read(cursor, &header)?;
    let rows = rows::read(cursor, declared.kind, header.inputs())?;
    cursor.expect_word(b"endprimitive")?;
    Ok(Table {
        inputs: header.inputs(),
        name: header.name,
        kind: declared.kind,
        start: declared.start,
        rows,
    })
}
