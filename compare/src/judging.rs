//! Judging: finding, witness and square, against the fast judge, and against the definition itself.

use crate::report::{part, Comparison};
use crate::verified;
use second::area::encode;
use second::compare::judging::compare_table;
use second::compare::{cases, kind, same, show, Mismatch, Outcome};
use second::generate::random::Random;
use second::generate::{areas, independent, tables};
use second::judge::{all_orders, judge, pairwise, Finding};
use second::print;
use second::table::Table;

pub const COMPARISON: Comparison = Comparison {
    name: "judging",
    parts: &[
        part("small", 20_000, |seed, count| {
            tables(seed, count, |random| {
                *random.pick(&[1, 2, 2, 3, 3, 3, 4, 4, 4, 5])
            })
        }),
        part("large", 300, |seed, count| tables(seed, count, six_to_nine)),
        part("largest", 1, |seed, count| {
            cases(seed, count, |seed, random| {
                compare_table(seed, &largest(random), &verified::judge)
            })
        }),
        part("areas", 1_000, lent_areas),
        part("definition", 400, |seed, count| {
            definition(seed, count, |random| random.between(1, 3))
        }),
        part("definition-of-four", 10, |seed, count| {
            definition(seed, count, |_| 4)
        }),
    ],
};

fn tables(seed: u64, count: usize, inputs: fn(&mut Random) -> usize) -> Outcome {
    cases(seed, count, |seed, random| {
        let inputs = inputs(random);
        let table = seldom_many_rows(random, inputs);
        compare_table(seed, &table, &verified::judge)
    })
}

/// Each input more makes judging some twelve times longer.
fn six_to_nine(random: &mut Random) -> usize {
    match random.below(60) {
        0 => 9,
        1..=2 => 8,
        3..=11 => 7,
        _ => 6,
    }
}

/// Many rows make many calls slow, and show little that few do not.
fn seldom_many_rows(random: &mut Random, inputs: usize) -> Table {
    loop {
        let table = tables::sized(random, inputs);
        if table.rows.len() <= 20 || random.one_in(8) {
            return table;
        }
    }
}

/// Nine inputs and 64 rows, independent or nearly so: nothing is found early.
fn largest(random: &mut Random) -> Table {
    match random.below(3) {
        0 => independent::nearly(random, 9),
        1 => independent::same_steps(random, 9, 64),
        _ => independent::any(random, 9),
    }
}

fn lent_areas(seed: u64, count: usize) -> Outcome {
    cases(seed, count, |seed, random| {
        let mut area = areas::area(random);
        if area.len() > 34 && area[34] > 5 {
            area[34] = random.between(0, 5) as u8;
        }
        let ours = judge(&area);
        let theirs = verified::judge(&area);
        same("judging", seed, || show(&area), &ours, &theirs)?;
        Ok(kind(&ours, "judged"))
    })
}

/// All full orders for every pair of vectors and every old output; the witness by the search as written.
fn definition(seed: u64, count: usize, inputs: fn(&mut Random) -> usize) -> Outcome {
    cases(seed, count, |seed, random| {
        let inputs = inputs(random);
        by_definition(seed, &tables::sized(random, inputs))
    })
}

fn by_definition(seed: u64, table: &Table) -> Result<String, Mismatch> {
    let text = || String::from_utf8_lossy(&print::text(table)).into_owned();
    let theirs = verified::judge(&encode(table));
    same("search", seed, text, &Ok(pairwise::judge(table)), &theirs)?;
    let independent = theirs.is_ok_and(|judged| judged.finding == Finding::Independent);
    let all_agree = all_orders::is_independent(table);
    same("definition", seed, text, &all_agree, &independent)?;
    Ok(if all_agree { "I" } else { "D" }.to_string())
}
