//! All walks as one Verilog text: the primitives, and a module that writes one line for each step.

use super::walk::Walk;
use second::print;
use second::table::Table;
use std::fmt::Write;

pub fn text(walks: &[Walk]) -> String {
    let mut text = String::new();
    for (k, walk) in walks.iter().enumerate() {
        let table = Table {
            name: format!("p{k}").into_bytes(),
            ..walk.table.clone()
        };
        text += &String::from_utf8_lossy(&print::text(&table));
    }
    text += "module walks;\n";
    for (k, walk) in walks.iter().enumerate() {
        text += &instance(k, walk.table.inputs);
    }
    text += "initial begin\n#1;\n";
    for (k, walk) in walks.iter().enumerate() {
        for &(input, value) in &walk.changes {
            let value = value as char;
            writeln!(
                text,
                "i{k}_{input} = 1'b{value}; #1 $display(\"%b\", o{k});"
            )
            .expect("a string takes all");
        }
    }
    text + "end\nendmodule\n"
}

fn instance(k: usize, inputs: usize) -> String {
    let wires: Vec<String> = (0..inputs).map(|input| format!("i{k}_{input}")).collect();
    let list = wires.join(", ");
    format!("reg {list}; wire o{k}; p{k} u{k}(o{k}, {list});\n")
}
