//! The plainest text that reads as a given table.

use crate::symbol::Symbol;
use crate::table::{Kind, Row, Table};
use crate::value::Value;

pub fn text(table: &Table) -> Vec<u8> {
    let inputs: Vec<String> = (1..=table.inputs).map(|k| format!("i{k}")).collect();
    let list = inputs.join(",");
    let name = String::from_utf8_lossy(&table.name);
    let mut out = format!("primitive {name}(o,{list});\noutput o; input {list};\n");
    if table.kind == Kind::Sequential {
        out += "reg o;\n";
    }
    out += initial(table.start);
    out += "table\n";
    for row in &table.rows {
        out += &row_text(row, table.kind);
    }
    (out + "endtable\nendprimitive\n").into_bytes()
}

fn initial(start: Value) -> &'static str {
    match start {
        Value::Zero => "initial o = 0;\n",
        Value::One => "initial o = 1;\n",
        Value::X => "",
    }
}

fn row_text(row: &Row, kind: Kind) -> String {
    let columns: Vec<String> = row
        .symbols
        .iter()
        .map(|&symbol| symbol_text(symbol))
        .collect();
    let state = match kind {
        Kind::Combinational => String::new(),
        Kind::Sequential => format!(":{}", row.state.byte() as char),
    };
    format!(
        "{}{state}:{};\n",
        columns.join(" "),
        row.output.byte() as char
    )
}

pub fn symbol_text(symbol: Symbol) -> String {
    match symbol.bytes() {
        [one, 0] => (one as char).to_string(),
        [v, w] => format!("({}{})", v as char, w as char),
    }
}
