//! A primitive as its author might write it: the parts of a text, before any spacing.

use super::names;
use super::random::Random;
use crate::print::symbol_text;
use crate::table::{Kind, Row, Table};
use crate::value::Value;

pub type Bytes = Vec<u8>;

#[derive(Clone, Debug)]
pub enum Declaration {
    Output(Bytes),
    Reg(Bytes),
    Input(Vec<Bytes>),
}

#[derive(Clone, Debug)]
pub struct SourceRow {
    pub columns: Vec<Bytes>,
    pub state: Option<Bytes>,
    pub output: Bytes,
}

#[derive(Clone, Debug)]
pub struct Source {
    pub name: Bytes,
    pub ports: Vec<Bytes>,
    pub declarations: Vec<Declaration>,
    pub initial: Option<(Bytes, Bytes)>,
    pub rows: Vec<SourceRow>,
}

/// A piece of text that blanks may surround; row symbols need none between them.
#[derive(Clone, Debug)]
pub struct Token {
    pub bytes: Bytes,
    pub in_row: bool,
}

impl Source {
    /// One of the many ways to write a table.
    pub fn of(random: &mut Random, table: &Table) -> Source {
        let mut ports = names::several(random, table.inputs + 1);
        if random.one_in(6) && !ports.contains(&table.name) {
            ports[random.below(table.inputs + 1)] = table.name.clone();
        }
        Source {
            name: table.name.clone(),
            declarations: declarations(random, &ports, table.kind),
            initial: initial(random, table).map(|value| (ports[0].clone(), value)),
            rows: table
                .rows
                .iter()
                .map(|row| source_row(random, row, table.kind))
                .collect(),
            ports,
        }
    }

    pub fn tokens(&self) -> Vec<Token> {
        let mut tokens = Vec::new();
        self.header(&mut tokens);
        self.declarations
            .iter()
            .for_each(|declaration| declare(&mut tokens, declaration));
        if let Some((name, value)) = &self.initial {
            words(&mut tokens, &[b"initial", name, b"=", value, b";"]);
        }
        words(&mut tokens, &[b"table"]);
        self.rows
            .iter()
            .for_each(|row| symbols(&mut tokens, &row.bytes()));
        words(&mut tokens, &[b"endtable", b"endprimitive"]);
        tokens
    }

    fn header(&self, tokens: &mut Vec<Token>) {
        words(tokens, &[b"primitive", &self.name, b"("]);
        list(tokens, &self.ports);
        words(tokens, &[b")", b";"]);
    }
}

impl SourceRow {
    pub fn bytes(&self) -> Bytes {
        let mut bytes = self.columns.concat();
        bytes.push(b':');
        if let Some(state) = &self.state {
            bytes.extend(state);
            bytes.push(b':');
        }
        bytes.extend(&self.output);
        bytes.push(b';');
        bytes
    }
}

fn words(tokens: &mut Vec<Token>, words: &[&[u8]]) {
    tokens.extend(words.iter().map(|word| Token {
        bytes: word.to_vec(),
        in_row: false,
    }));
}

fn symbols(tokens: &mut Vec<Token>, bytes: &[u8]) {
    tokens.extend(bytes.iter().map(|&byte| Token {
        bytes: vec![byte],
        in_row: true,
    }));
}

fn list(tokens: &mut Vec<Token>, names: &[Bytes]) {
    for (k, name) in names.iter().enumerate() {
        if k > 0 {
            words(tokens, &[b","]);
        }
        words(tokens, &[name]);
    }
}

fn declare(tokens: &mut Vec<Token>, declaration: &Declaration) {
    match declaration {
        Declaration::Output(name) => words(tokens, &[b"output", name]),
        Declaration::Reg(name) => words(tokens, &[b"reg", name]),
        Declaration::Input(names) => {
            words(tokens, &[b"input"]);
            list(tokens, names);
        }
    }
    words(tokens, &[b";"]);
}

/// The inputs in any order, in lists of any length, among the other declarations.
fn declarations(random: &mut Random, ports: &[Bytes], kind: Kind) -> Vec<Declaration> {
    let mut declarations = vec![Declaration::Output(ports[0].clone())];
    if kind == Kind::Sequential {
        declarations.push(Declaration::Reg(ports[0].clone()));
    }
    let mut inputs = ports[1..].to_vec();
    random.shuffle(&mut inputs);
    while !inputs.is_empty() {
        let length = random.between(1, inputs.len());
        declarations.push(Declaration::Input(inputs.drain(..length).collect()));
    }
    random.shuffle(&mut declarations);
    declarations
}

fn initial(random: &mut Random, table: &Table) -> Option<Bytes> {
    let forms: &[&[u8]] = match table.start {
        _ if table.kind == Kind::Combinational => return None,
        Value::X if random.one_in(2) => return None,
        Value::Zero => &[b"0", b"1'b0", b"1'B0"],
        Value::One => &[b"1", b"1'b1", b"1'B1"],
        Value::X => &[b"1'bx", b"1'bX", b"1'Bx", b"1'BX"],
    };
    Some(random.pick(forms).to_vec())
}

fn source_row(random: &mut Random, row: &Row, kind: Kind) -> SourceRow {
    let columns = row
        .symbols
        .iter()
        .map(|&symbol| any_case(random, symbol_text(symbol).as_bytes()));
    SourceRow {
        columns: columns.collect(),
        state: match kind {
            Kind::Combinational => None,
            Kind::Sequential => Some(any_case(random, &[row.state.byte()])),
        },
        output: any_case(random, &[row.output.byte()]),
    }
}

fn any_case(random: &mut Random, symbol: &[u8]) -> Bytes {
    let mut case = |byte: &u8| {
        if random.one_in(3) {
            byte.to_ascii_uppercase()
        } else {
            *byte
        }
    };
    symbol.iter().map(&mut case).collect()
}
