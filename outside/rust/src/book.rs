//! The book: opening, append, fetch.

use crate::refusal::told;
use crate::{ffi, Finding, Numbers, Refusal};

/// What opening tells of a book.
#[derive(Clone, Copy, PartialEq, Eq, Debug)]
pub struct Opened {
    pub entries: usize,
    pub good: usize,
    pub torn: usize,
}

/// A verdict as the book stores it.
#[derive(Clone, PartialEq, Eq, Debug)]
pub struct Entry {
    pub name: Vec<u8>,
    pub inputs: usize,
    pub rows: usize,
    pub finding: Finding,
}

/// Opens a book of which `stated` bytes count.
pub fn open(book: &[u8], stated: usize) -> Result<Opened, Refusal> {
    let (mut opened, mut answer) = ([0; ffi::OPENED], 0);
    // Safety: the first pointer comes with the length of its slice, the others are as long as the call says.
    let number = unsafe {
        ffi::bankplover_open(book.as_ptr(), book.len(), stated, &mut opened, &mut answer)
    };
    told(number, answer)?;
    let [entries, good, torn] = opened;
    Ok(Opened {
        entries,
        good,
        torn,
    })
}

/// Appends an entry; answers the new stated length. A witness that no numbers can say is passed on as
/// zeros, which do not fit the layout either.
pub fn append(book: &mut [u8], stated: usize, entry: &Entry) -> Result<usize, Refusal> {
    let (letter, witness) = match &entry.finding {
        Finding::Independent => (b'I', [0; ffi::WITNESS]),
        Finding::Dependent(witness) => (b'D', witness.numbers(entry.inputs).unwrap_or_default()),
    };
    let counts = (entry.inputs, entry.rows);
    append_numbers(book, stated, &entry.name, counts, letter, &witness)
}

/// The same with the counts of inputs and rows, the letter and the witness as the call takes them.
pub fn append_numbers(
    book: &mut [u8],
    stated: usize,
    name: &[u8],
    (inputs, rows): (usize, usize),
    letter: u8,
    witness: &Numbers,
) -> Result<usize, Refusal> {
    let mut answer = 0;
    // Safety: the first two pointers come with the lengths of their slices, the others are as long as the call says.
    let number = unsafe {
        ffi::bankplover_append(
            book.as_mut_ptr(),
            book.len(),
            stated,
            name.as_ptr(),
            name.len(),
            inputs,
            rows,
            letter,
            witness,
            &mut answer,
        )
    };
    told(number, answer)
}

/// Fetches entry `k`, counted from 1.
pub fn fetch(book: &[u8], stated: usize, k: usize) -> Result<Entry, Refusal> {
    let (mut entry, mut answer) = ([0; ffi::ENTRY], 0);
    // Safety: the first pointer comes with the length of its slice, the others are as long as the call says.
    let number = unsafe {
        ffi::bankplover_fetch(
            book.as_ptr(),
            book.len(),
            stated,
            k,
            &mut entry,
            &mut answer,
        )
    };
    told(number, answer)?;
    let [place, length, inputs, rows, letter, witness @ ..] = entry;
    Ok(Entry {
        name: book[place..place + length].to_vec(),
        inputs,
        rows,
        finding: Finding::of(letter as u8, &witness, inputs),
    })
}
