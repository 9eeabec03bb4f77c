//! Times of the verified library beside those of the second implementation: both in one process, in
//! turn, the best of several rounds of each.

mod book;
mod clock;
mod evaluation;
mod formed;
mod judging;
mod lister;
mod plot;
mod reading;
mod shapes;
mod stack;

use std::process::ExitCode;

const HELP: &str = "\
bench all                               every measurement that needs no other program
bench NAME                              one of them: formed, evaluation, reading, judging, book
bench lister LISTER.. -- SECOND..       both listers as programs, each given as the words that run it
bench stack                             how much stack the judge uses
bench plot                              what `bench judging` printed, from standard input, as a picture (SVG)
bench --help                            print this
";

const ALL: [(&str, fn()); 5] = [
    ("formed", formed::run),
    ("evaluation", evaluation::run),
    ("reading", reading::run),
    ("judging", judging::run),
    ("book", book::run),
];

fn main() -> ExitCode {
    let arguments: Vec<String> = std::env::args().skip(1).collect();
    let words: Vec<&str> = arguments.iter().map(String::as_str).collect();
    if run(&words).is_some() {
        return ExitCode::SUCCESS;
    }
    eprint!("{HELP}");
    ExitCode::from(2)
}

/// Nothing if the words make no command.
fn run(words: &[&str]) -> Option<()> {
    match *words {
        ["--help"] => print!("{HELP}"),
        ["stack"] => stack::run(),
        ["plot"] => {
            let printed = std::io::read_to_string(std::io::stdin()).ok()?;
            print!("{}", plot::picture(&printed));
        }
        ["all"] => {
            clock::head();
            ALL.iter().for_each(|(_, run)| run());
        }
        ["lister", ref rest @ ..] => {
            let middle = rest.iter().position(|word| *word == "--")?;
            let (verified, second) = (&rest[..middle], &rest[middle + 1..]);
            if verified.is_empty() || second.is_empty() {
                return None;
            }
            clock::head();
            lister::run(verified, second);
        }
        [name] => {
            let (_, run) = ALL.iter().find(|(other, _)| *other == name)?;
            clock::head();
            run();
        }
        _ => return None,
    }
    Some(())
}
