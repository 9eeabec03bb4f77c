//! Tables of document 01, and short ways to write texts and calls.
#![allow(dead_code)]

use second::area;
use second::judge::{Finding, Witness};
use second::reading::{find, read, Answer, Found};
use second::table::Table;

pub const KEEP: &str = "primitive keep(q,d,en);
output q; reg q; input en,d;
table
? 0:?:-;
0 1:?:0;
1 1:?:1;
endtable
endprimitive
";

pub fn sequential(name: &str, rows: &str) -> String {
    format!(
        "primitive {name}(q,a,b);\noutput q; reg q; input a,b;\ntable\n{rows}\nendtable\nendprimitive\n"
    )
}

pub fn combinational(name: &str, rows: &str) -> String {
    format!(
        "primitive {name}(q,a,b);\noutput q; input a,b;\ntable\n{rows}\nendtable\nendprimitive\n"
    )
}

pub fn take() -> String {
    sequential("take", "0 r:?:0; 1 r:?:1; ? n:?:-; * ?:?:-;")
}

pub fn mix() -> String {
    sequential("mix", "1 ?:?:1; ? r:?:0;")
}

pub fn par() -> String {
    combinational("par", "0 0:0; 0 1:1; 1 0:1; 1 1:0;")
}

pub fn table(text: &str) -> Table {
    match find(text.as_bytes(), 0) {
        Ok(Found::Table(table, _)) => table,
        other => panic!("no table in {text}: {other:?}"),
    }
}

pub fn area(text: &str) -> [u8; area::SIZE] {
    let mut lent = [0xaa; area::SIZE];
    match read(text.as_bytes(), 0, &mut lent) {
        Answer::Table(_) => lent,
        other => panic!("no table in {text}: {other:?}"),
    }
}

/// A D finding in the words of the book's line.
pub fn dependent(fields: &str) -> Finding {
    let fields: Vec<&[u8]> = fields.split(' ').map(str::as_bytes).collect();
    let order = |field: &[u8]| field.iter().map(|digit| digit - b'0').collect();
    Finding::Dependent(Witness {
        prev: fields[0].to_vec(),
        cur: fields[1].to_vec(),
        old: fields[2][0],
        order1: order(fields[3]),
        out1: fields[4][0],
        order2: order(fields[5]),
        out2: fields[6][0],
    })
}
