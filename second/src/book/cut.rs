//! What a cut during an append may leave of the file.

use super::{append, open, Verdict};
use crate::generate::random::Random;

/// An append on its way: the file as held before, and the entry's places.
pub struct Pending {
    held: Vec<u8>,
    good: usize,
    entry: Vec<u8>,
}

impl Pending {
    /// Nothing where the append would be refused.
    pub fn new(buffer: &[u8], stated: usize, verdict: &Verdict) -> Option<Pending> {
        let good = open(buffer, stated).ok()?.good;
        let mut after = buffer.to_vec();
        append(&mut after, stated, verdict).ok()?;
        let end = good + super::entry::write(verdict, good)?.len();
        let entry = after[good..end].to_vec();
        Some(Pending {
            held: buffer[..stated].to_vec(),
            good,
            entry,
        })
    }

    fn end(&self) -> usize {
        self.good + self.entry.len()
    }

    /// The file after the whole append, which a cut after the LF leaves.
    pub fn whole(&self) -> Vec<u8> {
        let mut file = self.held.clone();
        file.resize(self.held.len().max(self.end()), 0);
        file[self.good..self.end()].copy_from_slice(&self.entry);
        file
    }

    /// The lengths the file may have before the LF is held.
    pub fn lengths(&self) -> std::ops::RangeInclusive<usize> {
        self.held.len()..=self.held.len().max(self.end())
    }

    /// The different bytes that a place of the file may hold before the LF is held.
    pub fn choices(&self, place: usize) -> Vec<u8> {
        let earlier = self.held.get(place).copied();
        if place < self.good || place >= self.end() {
            return earlier.into_iter().collect();
        }
        let new = Some(self.entry[place - self.good]).filter(|&byte| byte != b'\n');
        let mut choices: Vec<u8> = [new, Some(0), earlier].into_iter().flatten().collect();
        choices.sort_unstable();
        choices.dedup();
        choices
    }

    /// One state before the LF, by chance.
    pub fn sample(&self, random: &mut Random) -> Vec<u8> {
        let lengths = self.lengths();
        let length = random.between(*lengths.start(), *lengths.end());
        (0..length)
            .map(|place| *random.pick(&self.choices(place)))
            .collect()
    }

    /// One state by chance, of all that a cut may leave.
    pub fn sample_any(&self, random: &mut Random) -> Vec<u8> {
        if random.one_in(4) {
            return self.whole();
        }
        self.sample(random)
    }

    /// Shows every state to `show`: all before the LF, then the whole append.
    pub fn each(&self, mut show: impl FnMut(&[u8])) {
        for length in self.lengths() {
            let mut file = Vec::with_capacity(length);
            self.extend(&mut file, length, &mut show);
        }
        show(&self.whole());
    }

    fn extend(&self, file: &mut Vec<u8>, length: usize, show: &mut impl FnMut(&[u8])) {
        if file.len() == length {
            return show(file);
        }
        for byte in self.choices(file.len()) {
            file.push(byte);
            self.extend(file, length, show);
            file.pop();
        }
    }
}
