//! `second_book LIBRARY`: the book that the second implementation makes of a library, on standard output.

use second::book::{append, Verdict};
use second::judge::fast;
use second::limits::BOOK_BYTES;
use second::reading::{find, Found};
use std::io::{self, Write};
use std::process::ExitCode;

fn main() -> ExitCode {
    let Some(library) = std::env::args_os().nth(1) else {
        eprintln!("second_book LIBRARY");
        return ExitCode::from(2);
    };
    let made = std::fs::read(library).map(|text| book(&text));
    match made {
        Ok(Ok(book)) if io::stdout().write_all(&book).is_ok() => ExitCode::SUCCESS,
        answer => {
            eprintln!("second_book: {answer:?}");
            ExitCode::FAILURE
        }
    }
}

fn book(text: &[u8]) -> Result<Vec<u8>, String> {
    let mut book = vec![0; BOOK_BYTES];
    let (mut place, mut stated) = (0, 0);
    loop {
        match find(text, place).map_err(|refusal| refusal.to_string())? {
            Found::End => {
                book.truncate(stated);
                return Ok(book);
            }
            Found::Table(table, next) => {
                let verdict = Verdict::of(&table, fast::finding(&table));
                stated =
                    append(&mut book, stated, &verdict).map_err(|refusal| refusal.to_string())?;
                place = next;
            }
        }
    }
}
