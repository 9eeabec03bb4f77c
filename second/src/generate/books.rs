//! Books: random runs of appends with cuts, and books with damage.

use super::lines;
use super::random::Random;
use super::verdicts;
use crate::book::cut::Pending;
use crate::book::{append, entry, Verdict};
use crate::limits::BOOK_BYTES;

/// A lent book: a buffer and its stated length.
#[derive(Clone, PartialEq, Eq, Debug)]
pub struct Lent {
    pub buffer: Vec<u8>,
    pub stated: usize,
}

/// A sound book from a run of appends and cuts, with the verdicts whose last byte was stored.
pub fn run(random: &mut Random) -> (Lent, Vec<Verdict>) {
    let mut lent = Lent {
        buffer: Vec::new(),
        stated: 0,
    };
    let mut stored = Vec::new();
    for _ in 0..random.below(6) {
        let verdict = verdicts::verdict(random);
        lent.buffer.resize(lent.stated + 200, random.byte());
        if event(random, &mut lent, &verdict) {
            stored.push(verdict);
        }
    }
    (lent, stored)
}

/// One append, cut by one in three; answers whether the entry's last byte was stored.
pub fn event(random: &mut Random, lent: &mut Lent, verdict: &Verdict) -> bool {
    if random.one_in(3) {
        let pending = Pending::new(&lent.buffer, lent.stated, verdict).expect("room was made");
        let file = pending.sample_any(random);
        let stored = file == pending.whole();
        lent.stated = file.len();
        lent.buffer[..file.len()].copy_from_slice(&file);
        return stored;
    }
    lent.stated = append(&mut lent.buffer, lent.stated, verdict).expect("room was made");
    true
}

/// A lent book of any kind: sound, torn, damaged, too long, full to the limit.
pub fn lent(random: &mut Random) -> Lent {
    let (mut lent, _) = run(random);
    match random.below(12) {
        0..=3 => {}
        4 => tear(random, &mut lent),
        5 => lent.stated = lent.buffer.len() + 1 + random.below(3),
        6 => lent.buffer.truncate(lent.stated),
        7 if random.one_in(20) => return full(random),
        8 => damage_byte(random, &mut lent),
        _ => return with_damaged_line(random, &lent),
    }
    lent
}

/// Bytes of any kind but LF behind the good part.
fn tear(random: &mut Random, lent: &mut Lent) {
    lent.buffer.truncate(lent.stated);
    for _ in 0..random.between(1, 120) {
        lent.buffer.push(match random.byte() {
            b'\n' => 0,
            byte => byte,
        });
    }
    lent.stated = lent.buffer.len();
}

fn damage_byte(random: &mut Random, lent: &mut Lent) {
    if lent.stated > 0 {
        lent.buffer[random.below(lent.stated)] = random.byte();
    }
}

/// The stored lines with a damaged one among them, trailers otherwise right.
fn with_damaged_line(random: &mut Random, lent: &Lent) -> Lent {
    let mut book = Vec::new();
    let lines = random.between(1, 4);
    let wrong = random.below(lines);
    for k in 0..lines {
        let place = book.len();
        if k == wrong {
            book.extend(lines::damaged(random, place));
        } else {
            let verdict = verdicts::verdict(random);
            book.extend(entry::write(&verdict, place).expect("a fitting verdict"));
        }
    }
    let stated = book.len();
    book.extend(&lent.buffer);
    Lent {
        buffer: book,
        stated,
    }
}

/// A book whose room is nearly used up, the buffer as long as the limit or a little longer.
pub fn full(random: &mut Random) -> Lent {
    let mut book = Vec::new();
    let end = BOOK_BYTES - random.below(100);
    loop {
        let verdict = verdicts::verdict(random);
        let line = entry::write(&verdict, book.len()).expect("a fitting verdict");
        if book.len() + line.len() > end {
            break;
        }
        book.extend(line);
    }
    let stated = book.len();
    book.resize(BOOK_BYTES + random.below(3), 0);
    Lent {
        buffer: book,
        stated,
    }
}
