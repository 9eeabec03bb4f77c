//! P14 of document 01 and its other cases of the book.

mod common;

use bankplover::{append, append_numbers, fetch, open, Entry, Finding, Opened, Refusal};
use common::dependent;

const KEEP_LINE: &[u8] = b"keep 2 3 D 01 10 0 12 1 21 0 @00000\n";

fn keep() -> Entry {
    Entry {
        name: b"keep".to_vec(),
        inputs: 2,
        rows: 3,
        finding: dependent("01 10 0 12 1 21 0"),
    }
}

fn par() -> Entry {
    Entry {
        name: b"par".to_vec(),
        inputs: 2,
        rows: 4,
        finding: Finding::Independent,
    }
}

fn refused<T>(number: u8, place: usize) -> Result<T, Refusal> {
    Err(Refusal { number, place })
}

fn opened(entries: usize, good: usize, torn: usize) -> Result<Opened, Refusal> {
    Ok(Opened {
        entries,
        good,
        torn,
    })
}

#[test]
fn p14_keep_and_torn_bytes() {
    let mut book = KEEP_LINE.to_vec();
    book.extend(b"par 2 4 I ");
    assert_eq!(open(&book, 46), opened(1, 36, 10));
}

#[test]
fn par_after_keep_makes_53_bytes() {
    let mut book = [7; 60];
    assert_eq!(append(&mut book, 0, &keep()), Ok(36));
    assert_eq!(&book[..36], KEEP_LINE);
    assert_eq!(append(&mut book, 36, &par()), Ok(53));
    assert_eq!(
        &book[36..],
        b"par 2 4 I @00036\n\x07\x07\x07\x07\x07\x07\x07"
    );
    assert_eq!(open(&book, 53), opened(2, 53, 0));
    assert_eq!(fetch(&book, 53, 1), Ok(keep()));
    assert_eq!(fetch(&book, 53, 2), Ok(par()));
    assert_eq!(fetch(&book, 53, 0), refused(16, 0));
    assert_eq!(fetch(&book, 53, 3), refused(16, 0));
}

/// A sound book of exactly so many bytes.
fn book_of(length: usize) -> Vec<u8> {
    let mut book = Vec::new();
    while book.len() < length {
        let left = length - book.len();
        let name = match left {
            60.. => 16,
            47.. => 1,
            _ => left - 14,
        };
        let line = format!("{} 1 1 I @{:05}\n", "n".repeat(name), book.len());
        book.extend(line.bytes());
    }
    assert_eq!(book.len(), length);
    book
}

#[test]
fn the_36_byte_entry_fits_at_65500_and_not_at_65501() {
    let mut book = book_of(65_500);
    book.resize(70_000, 7);
    assert_eq!(append(&mut book, 65_500, &keep()), Ok(65_536));
    assert_eq!(&book[65_500..65_529], &KEEP_LINE[..29]);
    assert_eq!(&book[65_529..65_537], b"@65500\n\x07");
    let mut book = book_of(65_501);
    book.resize(70_000, 7);
    let before = book.clone();
    assert_eq!(append(&mut book, 65_501, &keep()), refused(15, 65_501));
    assert_eq!(book, before);
}

#[test]
fn empty_books_and_books_that_are_none() {
    assert_eq!(open(b"", 0), opened(0, 0, 0));
    assert_eq!(open(b"\n", 1), refused(13, 0));
    assert_eq!(open(b"", 1), refused(13, 0));
    assert_eq!(open(&[0; 65_537], 65_537), refused(13, 65_536));
    let mut book = KEEP_LINE.to_vec();
    book.extend(b"keep\n");
    assert_eq!(open(&book, 41), refused(13, 36));
    assert_eq!(append(&mut book, 41, &par()), refused(13, 36));
    assert_eq!(fetch(&book, 41, 9), refused(13, 36));
}

#[test]
fn verdicts_that_do_not_fit() {
    let mut book = [0; 10];
    for name in ["", "9", "table", "a b"] {
        let entry = Entry {
            name: name.into(),
            ..par()
        };
        assert_eq!(append(&mut book, 0, &entry), refused(14, 0));
    }
    let same_outputs = Entry {
        finding: dependent("01 10 0 12 1 21 1"),
        ..keep()
    };
    assert_eq!(append(&mut book, 0, &same_outputs), refused(14, 0));
    let orders_turned = Entry {
        finding: dependent("01 10 0 21 1 12 0"),
        ..keep()
    };
    assert_eq!(append(&mut book, 0, &orders_turned), refused(14, 0));
    assert_eq!(append(&mut book, 0, &par()), refused(15, 0));
    assert_eq!(book, [0; 10]);
}

#[test]
fn numbers_that_do_not_fit() {
    let sound = [1, 2, 1, 49, 48, 48, 49, 48];
    let mut book = [0; 100];
    let mut put =
        |witness: &[usize; 8]| append_numbers(&mut book, 0, b"keep", (2, 3), b'D', witness);
    assert_eq!(put(&sound), Ok(36));
    for (k, wrong) in [
        (0, 0),
        (0, 2),
        (1, 1),
        (1, 3),
        (2, 9),
        (2, usize::MAX),
        (3, 48),
        (4, 49),
        (5, 50),
        (5, 256 + 48),
        (6, 48),
        (7, 120 + 256),
    ] {
        let mut witness = sound;
        witness[k] = wrong;
        assert_eq!(put(&witness), refused(14, 0), "{k} {wrong}");
    }
}
