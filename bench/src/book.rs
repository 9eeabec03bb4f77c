//! A full book of 65,536 bytes: opening, fetch, and the last append.

use crate::clock;
use bankplover::{Entry, Finding};
use second::book::{entry, Verdict};
use second::generate::random::Random;
use second::generate::verdicts;
use second::limits::BOOK_BYTES;

pub fn run() {
    of_book("shortest entries", &filled(|_| named(b"a".to_vec())));
    of_book("any entries", &filled(verdicts::verdict));
    of_book("longest entries", &filled(verdicts::longest));
}

fn of_book(what: &str, book: &[u8]) {
    let stated = book.len();
    let opened = bankplover::open(book, stated).expect("it is a book");
    let entries = opened.entries;
    clock::line(
        &format!("opening, {what}: {entries}"),
        || bankplover::open(book, stated),
        || second::book::open(book, stated),
    );
    for k in [1, entries / 2, entries] {
        clock::line(
            &format!("fetching entry {k}, {what}"),
            || bankplover::fetch(book, stated, k),
            || second::book::fetch(book, stated, k),
        );
    }
    append(what, book);
}

/// The same last entry again and again.
fn append(what: &str, book: &[u8]) {
    let last = book[..book.len() - 1]
        .iter()
        .rposition(|&byte| byte == b'\n');
    let stated = last.map_or(0, |place| place + 1);
    let (mut ours, mut theirs) = (book.to_vec(), book.to_vec());
    let entry = Entry {
        name: b"a".to_vec(),
        inputs: 1,
        rows: 1,
        finding: Finding::Independent,
    };
    clock::line(
        &format!("appending the last entry, {what}"),
        || bankplover::append(&mut ours, stated, &entry),
        || second::book::append(&mut theirs, stated, &named(b"a".to_vec())),
    );
}

fn named(name: Vec<u8>) -> Verdict {
    Verdict {
        name,
        inputs: 1,
        rows: 1,
        finding: second::judge::Finding::Independent,
    }
}

/// Entries by this maker until no more fits.
fn filled(make: impl Fn(&mut Random) -> Verdict) -> Vec<u8> {
    let random = &mut Random::new(7);
    let mut book = Vec::new();
    loop {
        let line = entry::write(&make(random), book.len()).expect("it fits the layout");
        if book.len() + line.len() > BOOK_BYTES {
            return book;
        }
        book.extend(line);
    }
}
