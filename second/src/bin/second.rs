//! `second list`: library text from standard input, the lister's lines to standard output.

use second::limits::TEXT_BYTES;
use second::lister;
use std::io::{self, Read, Write};
use std::process::ExitCode;

const HELP: &str = "\
second list      read library text from standard input and print each verdict
second --help    print this
";

fn main() -> ExitCode {
    let arguments: Vec<String> = std::env::args().skip(1).collect();
    let words: Vec<&str> = arguments.iter().map(String::as_str).collect();
    let done = match words[..] {
        ["list"] => list(),
        ["--help"] => io::stdout().write_all(HELP.as_bytes()),
        _ => {
            eprint!("{HELP}");
            return ExitCode::from(2);
        }
    };
    match done {
        Ok(()) => ExitCode::SUCCESS,
        Err(error) => {
            eprintln!("second: {error}");
            ExitCode::FAILURE
        }
    }
}

/// One byte beyond the limit is enough to know that a text is too long.
fn list() -> io::Result<()> {
    let mut text = Vec::new();
    io::stdin()
        .lock()
        .take(TEXT_BYTES as u64 + 1)
        .read_to_end(&mut text)?;
    io::stdout().write_all(&lister::list(&text))
}
