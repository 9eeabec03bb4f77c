//! How a table lies in its area of 1317 bytes.

use crate::limits::{INPUTS, NAME_BYTES, ROWS};
use crate::symbol::{Level, Symbol};
use crate::table::{Kind, Output, Row, Table};
use crate::value::Value;

const NAME: usize = 1;
const KIND: usize = NAME + NAME_BYTES;
const COUNT_OF_INPUTS: usize = KIND + 1;
const START: usize = COUNT_OF_INPUTS + 1;
const COUNT_OF_ROWS: usize = START + 1;
const FIRST_ROW: usize = COUNT_OF_ROWS + 1;
const STATE: usize = 2 * INPUTS;
const OUTPUT: usize = STATE + 1;
const ROW: usize = OUTPUT + 1;
pub const SIZE: usize = FIRST_ROW + ROWS * ROW;

/// The area of a table within the limits; unused places are zeros.
pub fn encode(table: &Table) -> [u8; SIZE] {
    let mut area = [0; SIZE];
    area[0] = table.name.len() as u8;
    area[NAME..NAME + table.name.len()].copy_from_slice(&table.name);
    area[KIND] = kind_byte(table.kind);
    area[COUNT_OF_INPUTS] = table.inputs as u8;
    area[START] = table.start.byte();
    area[COUNT_OF_ROWS] = table.rows.len() as u8;
    for (place, row) in area[FIRST_ROW..].chunks_exact_mut(ROW).zip(&table.rows) {
        encode_row(place, row);
    }
    area
}

fn encode_row(place: &mut [u8], row: &Row) {
    for (column, symbol) in place.chunks_exact_mut(2).zip(&row.symbols) {
        column.copy_from_slice(&symbol.bytes());
    }
    place[STATE] = row.state.byte();
    place[OUTPUT] = row.output.byte();
}

/// The table of a well-formed area, and nothing for any other bytes.
pub fn decode(area: &[u8]) -> Option<Table> {
    let table = take_apart(area)?;
    (table.is_valid() && encode(&table)[..] == *area).then_some(table)
}

pub fn is_well_formed(area: &[u8]) -> bool {
    decode(area).is_some()
}

fn take_apart(area: &[u8]) -> Option<Table> {
    if area.len() != SIZE {
        return None;
    }
    let inputs = usize::from(area[COUNT_OF_INPUTS]);
    let name = area[NAME..KIND].get(..usize::from(area[0]))?;
    let rows = area[FIRST_ROW..]
        .chunks_exact(ROW)
        .take(usize::from(area[COUNT_OF_ROWS]));
    Some(Table {
        name: name.to_vec(),
        kind: kind_of(area[KIND])?,
        inputs,
        start: Value::from_byte(area[START])?,
        rows: rows
            .map(|row| take_row_apart(row, inputs))
            .collect::<Option<_>>()?,
    })
}

fn take_row_apart(place: &[u8], inputs: usize) -> Option<Row> {
    let columns = place[..STATE].chunks_exact(2).take(inputs);
    let symbols = columns.map(|column| Symbol::from_bytes([column[0], column[1]]));
    Some(Row {
        symbols: symbols.collect::<Option<_>>()?,
        state: Level::from_byte(place[STATE])?,
        output: Output::from_byte(place[OUTPUT])?,
    })
}

fn kind_byte(kind: Kind) -> u8 {
    match kind {
        Kind::Combinational => b'c',
        Kind::Sequential => b's',
    }
}

fn kind_of(byte: u8) -> Option<Kind> {
    match byte {
        b'c' => Some(Kind::Combinational),
        b's' => Some(Kind::Sequential),
        _ => None,
    }
}
