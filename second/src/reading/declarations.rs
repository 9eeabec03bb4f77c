//! `output`, `reg`, `input` in any order, then perhaps `initial`, up to and with `table`.

use super::cursor::Cursor;
use super::header::Header;
use crate::refusal::{Refusal, COMMENT_WITHOUT_END, NOT_EXPECTED, PORTS};
use crate::table::Kind;
use crate::value::Value;

pub struct Declared {
    pub kind: Kind,
    pub start: Value,
}

/// What the declarations so far have said.
struct Seen {
    ports: Vec<bool>,
    reg: bool,
}

impl Seen {
    fn kind(&self) -> Kind {
        if self.reg {
            Kind::Sequential
        } else {
            Kind::Combinational
        }
    }

    fn all_declared(&self, cursor: &Cursor) -> Result<(), Refusal> {
        if self.ports.iter().all(|&declared| declared) {
            return Ok(());
        }
        Err(cursor.refuse(PORTS))
    }
}

pub fn read(cursor: &mut Cursor, header: &Header) -> Result<Declared, Refusal> {
    let mut seen = Seen {
        ports: vec![false; header.ports.len()],
        reg: false,
    };
    loop {
        cursor.skip_blanks()?;
        let word = cursor.word();
        match word {
            b"output" | b"reg" | b"input" => {
                cursor.pass(word);
                declaration(cursor, header, &mut seen, word)?;
            }
            b"initial" => return with_initial(cursor, header, &seen),
            b"table" => return without_initial(cursor, &seen),
            _ => return Err(cursor.refuse(NOT_EXPECTED)),
        }
    }
}

fn declaration(
    cursor: &mut Cursor,
    header: &Header,
    seen: &mut Seen,
    word: &[u8],
) -> Result<(), Refusal> {
    match word {
        b"output" => output(cursor, header, seen),
        b"reg" => reg(cursor, header, seen),
        _ => inputs(cursor, header, seen),
    }
}

fn output(cursor: &mut Cursor, header: &Header, seen: &mut Seen) -> Result<(), Refusal> {
    let name = cursor.name()?;
    if name != header.output() || seen.ports[0] {
        return Err(cursor.refuse(PORTS));
    }
    seen.ports[0] = true;
    cursor.pass(name);
    cursor.expect(b';')
}

fn reg(cursor: &mut Cursor, header: &Header, seen: &mut Seen) -> Result<(), Refusal> {
    let name = cursor.name()?;
    if name != header.output() || seen.reg {
        return Err(cursor.refuse(PORTS));
    }
    seen.reg = true;
    cursor.pass(name);
    cursor.expect(b';')
}

fn inputs(cursor: &mut Cursor, header: &Header, seen: &mut Seen) -> Result<(), Refusal> {
    loop {
        input(cursor, header, seen)?;
        if cursor.expect_one_of(b",;")? == b';' {
            return Ok(());
        }
    }
}

fn input(cursor: &mut Cursor, header: &Header, seen: &mut Seen) -> Result<(), Refusal> {
    let name = cursor.name()?;
    match header.ports.iter().position(|port| port == name) {
        Some(port) if port > 0 && !seen.ports[port] => seen.ports[port] = true,
        _ => return Err(cursor.refuse(PORTS)),
    }
    cursor.pass(name);
    Ok(())
}

fn without_initial(cursor: &mut Cursor, seen: &Seen) -> Result<Declared, Refusal> {
    seen.all_declared(cursor)?;
    cursor.pass(b"table");
    Ok(Declared {
        kind: seen.kind(),
        start: Value::X,
    })
}

fn with_initial(cursor: &mut Cursor, header: &Header, seen: &Seen) -> Result<Declared, Refusal> {
    if !seen.reg {
        return Err(cursor.refuse(NOT_EXPECTED));
    }
    seen.all_declared(cursor)?;
    cursor.pass(b"initial");
    let name = cursor.name()?;
    if name != header.output() {
        return Err(cursor.refuse(PORTS));
    }
    cursor.pass(name);
    cursor.expect(b'=')?;
    let start = starting_value(cursor)?;
    cursor.expect(b';')?;
    cursor.expect_word(b"table")?;
    Ok(Declared {
        kind: seen.kind(),
        start,
    })
}

/// V, read byte by byte: `0`, `1`, or `1'b` and one of `0`, `1`, `x`.
fn starting_value(cursor: &mut Cursor) -> Result<Value, Refusal> {
    if cursor.expect_one_of(b"01")? == b'0' {
        return Ok(Value::Zero);
    }
    if cursor.byte() != Some(b'\'') {
        return Ok(Value::One);
    }
    cursor.advance();
    next_byte(cursor, b"bB")?;
    match next_byte(cursor, b"01xX")? {
        b'0' => Ok(Value::Zero),
        b'1' => Ok(Value::One),
        _ => Ok(Value::X),
    }
}

/// The very next byte; an unclosed comment there is the lower number at that byte.
fn next_byte(cursor: &mut Cursor, bytes: &[u8]) -> Result<u8, Refusal> {
    match cursor.byte() {
        Some(byte) if bytes.contains(&byte) => {
            cursor.advance();
            Ok(byte)
        }
        _ if opens_unclosed_comment(cursor.rest()) => Err(cursor.refuse(COMMENT_WITHOUT_END)),
        _ => Err(cursor.refuse(NOT_EXPECTED)),
    }
}

fn opens_unclosed_comment(rest: &[u8]) -> bool {
    rest.strip_prefix(b"/*")
        .is_some_and(|inside| !inside.windows(2).any(|two| two == b"*/"))
}
