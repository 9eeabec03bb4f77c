//! Times of the fast judge on independent tables, by number of inputs.

use second::area::encode;
use second::generate::independent;
use second::generate::random::Random;
use second::judge::{fast, judge, Finding};
use second::limits::ROWS;
use second::table::Table;
use std::hint::black_box;
use std::time::Instant;

type Make = fn(&mut Random, usize, usize) -> Table;

fn main() {
    let makers: [(&str, Make); 3] = [
        ("combinational", independent::combinational),
        ("level rows", independent::level_rows),
        ("same steps", independent::same_steps),
    ];
    println!(
        "inputs rows  judging a table, judging an area (with its well-formedness), microseconds"
    );
    for n in [2, 3, 5, 7, 9] {
        for (name, make) in makers {
            line(n, name, &make(&mut Random::new(7), n, ROWS));
        }
    }
}

fn line(n: usize, name: &str, table: &Table) {
    assert_eq!(fast::finding(table), Finding::Independent);
    let area = encode(table);
    let of_table = best_of(n, || drop(black_box(fast::judge(black_box(table)))));
    let of_area = best_of(n, || drop(black_box(judge(black_box(&area)))));
    let rows = table.rows.len();
    println!("{n:6} {rows:4} {of_table:10.1} {of_area:10.1}  {name}");
}

/// The best of seven rounds, each long enough for the clock.
fn best_of(n: usize, call: impl Fn()) -> f64 {
    let repeats = 200_000 / 3usize.pow(2 * n as u32).min(200_000) + 1;
    let round = |_| {
        let begun = Instant::now();
        (0..repeats).for_each(|_| call());
        begun.elapsed().as_secs_f64() * 1e6 / repeats as f64
    };
    (0..7).map(round).fold(f64::INFINITY, f64::min)
}
