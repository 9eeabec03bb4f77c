//! Document 01's tables, as texts and as areas, so that no group of calls needs another.
#![allow(dead_code)]

use bankplover::{Finding, Witness, AREA};

pub const KEEP: &str = "primitive keep(q,d,en);
output q; reg q; input en,d;
table
? 0:?:-;
0 1:?:0;
1 1:?:1;
endtable
endprimitive
";

pub struct Table {
    pub name: &'static str,
    pub kind: u8,
    /// Columns, state and output, one byte each.
    pub rows: &'static [&'static str],
}

pub const KEEP_TABLE: Table = Table {
    name: "keep",
    kind: b's',
    rows: &["?0?-", "01?0", "11?1"],
};
pub const TAKE: Table = Table {
    name: "take",
    kind: b's',
    rows: &["0r?0", "1r?1", "?n?-", "*??-"],
};
pub const MIX: Table = Table {
    name: "mix",
    kind: b's',
    rows: &["1??1", "?r?0"],
};
pub const PAR: Table = Table {
    name: "par",
    kind: b'c',
    rows: &["00?0", "01?1", "10?1", "11?0"],
};

impl Table {
    pub fn inputs(&self) -> usize {
        self.rows[0].len() - 2
    }

    pub fn area(&self) -> [u8; AREA] {
        let (mut area, inputs) = ([0; AREA], self.inputs());
        area[0] = self.name.len() as u8;
        area[1..1 + self.name.len()].copy_from_slice(self.name.as_bytes());
        area[33..37].copy_from_slice(&[self.kind, inputs as u8, b'x', self.rows.len() as u8]);
        for (k, row) in self.rows.iter().enumerate() {
            let (row, place) = (row.as_bytes(), 37 + 20 * k);
            for (column, symbol) in row[..inputs].iter().enumerate() {
                area[place + 2 * column] = *symbol;
            }
            area[place + 18..place + 20].copy_from_slice(&row[inputs..]);
        }
        area
    }

    pub fn text(&self) -> String {
        let rows: Vec<String> = self.rows.iter().map(|row| self.row_text(row)).collect();
        text(self.name, self.kind, &rows.concat())
    }

    fn row_text(&self, row: &str) -> String {
        let (columns, rest) = row.split_at(self.inputs());
        match self.kind {
            b's' => format!("{columns}:{}:{};", &rest[..1], &rest[1..]),
            _ => format!("{columns}:{};", &rest[1..]),
        }
    }
}

/// A primitive of two inputs.
pub fn text(name: &str, kind: u8, rows: &str) -> String {
    let reg = if kind == b's' { "reg q;" } else { "" };
    format!(
        "primitive {name}(q,a,b); output q; {reg} input a,b; table {rows} endtable endprimitive"
    )
}

/// A dependent finding in the words of the book's line.
pub fn dependent(fields: &str) -> Finding {
    let fields: Vec<&[u8]> = fields.split(' ').map(str::as_bytes).collect();
    let order = |field: &[u8]| field.iter().map(|digit| digit - b'0').collect();
    Finding::Dependent(Witness {
        prev: fields[0].to_vec(),
        cur: fields[1].to_vec(),
        old: fields[2][0],
        order1: order(fields[3]),
        out1: fields[4][0],
        order2: order(fields[5]),
        out2: fields[6][0],
    })
}
