//! Sets of rows, one bit for each row.

use crate::limits::{INPUTS, ROWS};
use crate::symbol::Symbol;
use crate::table::{Row, Table};
use crate::value::Value;

pub struct Masks {
    /// Rows whose column is a level that matches the value.
    pub level: [[u64; 3]; INPUTS],
    /// Rows whose column is an edge that matches the change, by from and to.
    pub change: [[[u64; 3]; 3]; INPUTS],
    /// Rows whose state matches the old output.
    pub state: [u64; 3],
    /// Each row's output by old output, as ranks.
    pub output: [[u8; 3]; ROWS],
}

impl Masks {
    pub fn new(table: &Table) -> Masks {
        let mut masks = Masks {
            level: [[0; 3]; INPUTS],
            change: [[[0; 3]; 3]; INPUTS],
            state: [0; 3],
            output: [[0; 3]; ROWS],
        };
        for (r, row) in table.rows.iter().enumerate() {
            masks.add(r, row);
        }
        masks
    }

    fn add(&mut self, r: usize, row: &Row) {
        let bit = 1 << r;
        for (k, &symbol) in row.symbols.iter().enumerate() {
            self.add_symbol(k, symbol, bit);
        }
        for old in Value::ALL {
            self.state[old.rank()] |= if row.state.matches(old) { bit } else { 0 };
            self.output[r][old.rank()] = row.output.after(old).rank() as u8;
        }
    }

    fn add_symbol(&mut self, k: usize, symbol: Symbol, bit: u64) {
        for to in Value::ALL {
            match symbol {
                Symbol::Level(level) if level.matches(to) => self.level[k][to.rank()] |= bit,
                Symbol::Level(_) => {}
                Symbol::Edge(edge) => {
                    for from in Value::ALL
                        .into_iter()
                        .filter(|&from| edge.matches(from, to))
                    {
                        self.change[k][from.rank()][to.rank()] |= bit;
                    }
                }
            }
        }
    }
}
