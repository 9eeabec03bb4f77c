//! Runs the verified library against the second implementation: one line for each comparison that
//! agrees; at the first difference its seed, its input and both answers, and status 1.

mod areas;
mod book;
mod cells;
mod evaluation;
mod icarus;
mod judging;
mod lister;
mod matching;
mod published;
mod reading;
mod report;
mod verified;

use report::{Comparison, Part};
use std::process::ExitCode;

const HELP: &str = "\
compare all                          every comparison that needs no other program or file
compare NAME                         one of them: matching, areas, evaluation, reading, judging, book
compare NAME PART [SEED [COUNT]]     one part of it, from a seed on
compare published                    the primitives that the sources print
compare cells FILES [-- LISTER..]    the primitives of cell libraries, also by the lister's program
compare lister LISTER..              the lister's program, given as the words that run it
compare icarus                       single steps against Icarus Verilog
compare --quiet ..                   the same, with no line for each primitive
compare --help                       print this
";

const ALL: [Comparison; 6] = [
    matching::COMPARISON,
    areas::COMPARISON,
    evaluation::COMPARISON,
    reading::COMPARISON,
    judging::COMPARISON,
    book::COMPARISON,
];

fn main() -> ExitCode {
    let arguments: Vec<String> = std::env::args().skip(1).collect();
    let words: Vec<&str> = arguments.iter().map(String::as_str).collect();
    let agree = match words[..] {
        ["--quiet", ref rest @ ..] => run(rest, false),
        ref all => run(all, true),
    };
    match agree {
        Some(true) => ExitCode::SUCCESS,
        Some(false) => ExitCode::FAILURE,
        None => {
            eprint!("{HELP}");
            ExitCode::from(2)
        }
    }
}

/// Whether all agree; nothing if the words make no command.
fn run(words: &[&str], details: bool) -> Option<bool> {
    match *words {
        ["--help"] => {
            print!("{HELP}");
            Some(true)
        }
        ["all"] => Some(ALL.iter().all(report::run) && published(details)),
        ["published"] => Some(published(details)),
        ["icarus"] => Some(report::once("icarus", icarus::compare)),
        ["cells", ref rest @ ..] => cells(rest, details),
        ["lister", ref program @ ..] if !program.is_empty() => {
            Some(report::once("lister", || Ok(lister::compare(program))))
        }
        [name, ref rest @ ..] => {
            let comparison = ALL.iter().find(|comparison| comparison.name == name)?;
            some_parts(comparison, rest)
        }
        [] => None,
    }
}

fn published(details: bool) -> bool {
    report::once("published", || Ok(published::compare(details)))
}

fn cells(rest: &[&str], details: bool) -> Option<bool> {
    let mut halves = rest.split(|word| *word == "--");
    let (files, program) = (halves.next()?, halves.next());
    if files.is_empty() || program.is_some_and(<[&str]>::is_empty) {
        return None;
    }
    let compare = || cells::compare(files, program, details);
    Some(report::once("cells", compare))
}

fn some_parts(comparison: &Comparison, rest: &[&str]) -> Option<bool> {
    let [name, ref numbers @ ..] = *rest else {
        return Some(report::run(comparison));
    };
    let part = comparison.parts.iter().find(|part| part.name == name)?;
    let numbers: Option<Vec<u64>> = numbers.iter().map(|word| word.parse().ok()).collect();
    let (seed, count) = match numbers?[..] {
        [] => (part.seed, part.count),
        [seed] => (seed, 1),
        [seed, count] => (seed, count as usize),
        _ => return None,
    };
    let part = Part {
        seed,
        count,
        ..*part
    };
    Some(report::run_part(comparison, &part))
}
