//! `primitive NAME ( output, inputs );`

use super::cursor::Cursor;
use crate::limits::INPUTS;
use crate::refusal::{Refusal, PORTS, TOO_MANY};

pub struct Header {
    pub name: Vec<u8>,
    /// The output first, then the inputs; columns follow this list.
    pub ports: Vec<Vec<u8>>,
}

impl Header {
    pub fn inputs(&self) -> usize {
        self.ports.len() - 1
    }

    pub fn output(&self) -> &[u8] {
        &self.ports[0]
    }
}

pub fn read(cursor: &mut Cursor) -> Result<Header, Refusal> {
    cursor.expect_word(b"primitive")?;
    let name = cursor.name()?;
    cursor.pass(name);
    cursor.expect(b'(')?;
    let ports = ports(cursor)?;
    cursor.expect(b';')?;
    Ok(Header {
        name: name.to_vec(),
        ports,
    })
}

fn ports(cursor: &mut Cursor) -> Result<Vec<Vec<u8>>, Refusal> {
    let output = cursor.name()?;
    cursor.pass(output);
    let mut ports = vec![output.to_vec()];
    cursor.expect(b',')?;
    loop {
        let port = input_port(cursor, &ports)?;
        ports.push(port);
        if cursor.expect_one_of(b",)")? == b')' {
            return Ok(ports);
        }
    }
}

fn input_port(cursor: &mut Cursor, earlier: &[Vec<u8>]) -> Result<Vec<u8>, Refusal> {
    let name = cursor.name()?;
    if earlier.iter().any(|port| port == name) {
        return Err(cursor.refuse(PORTS));
    }
    if earlier.len() > INPUTS {
        return Err(cursor.refuse(TOO_MANY));
    }
    cursor.pass(name);
    Ok(name.to_vec())
}
