//! A place in the text: blanks, comments, words, single bytes.

use crate::limits::NAME_BYTES;
use crate::name::{is_keyword, is_name_byte, starts_name};
use crate::refusal::{Refusal, COMMENT_WITHOUT_END, NAME_TOO_LONG, NOT_EXPECTED};

pub struct Cursor<'t> {
    text: &'t [u8],
    at: usize,
}

impl<'t> Cursor<'t> {
    pub fn new(text: &'t [u8], at: usize) -> Cursor<'t> {
        Cursor { text, at }
    }

    pub fn at(&self) -> usize {
        self.at
    }

    pub fn at_end(&self) -> bool {
        self.at == self.text.len()
    }

    pub fn rest(&self) -> &'t [u8] {
        &self.text[self.at..]
    }

    pub fn byte(&self) -> Option<u8> {
        self.text.get(self.at).copied()
    }

    pub fn advance(&mut self) {
        self.at += 1;
    }

    pub fn refuse(&self, number: u8) -> Refusal {
        Refusal::new(number, self.at)
    }

    pub fn skip_blanks(&mut self) -> Result<(), Refusal> {
        loop {
            match self.rest() {
                [b' ' | b'\t' | b'\r' | b'\n' | 12, ..] => self.at += 1,
                [b'/', b'/', ..] => self.skip_line_comment(),
                [b'/', b'*', ..] => self.skip_block_comment()?,
                _ => return Ok(()),
            }
        }
    }

    fn skip_line_comment(&mut self) {
        let line = self.rest().iter().position(|&byte| byte == b'\n');
        self.at = line.map_or(self.text.len(), |length| self.at + length + 1);
    }

    fn skip_block_comment(&mut self) -> Result<(), Refusal> {
        let inside = &self.rest()[2..];
        let end = inside.windows(2).position(|two| two == b"*/");
        let Some(length) = end else {
            return Err(self.refuse(COMMENT_WITHOUT_END));
        };
        self.at += 2 + length + 2;
        Ok(())
    }

    /// The longest run of name bytes, empty where no word starts.
    pub fn word(&self) -> &'t [u8] {
        let rest = self.rest();
        if !rest.first().is_some_and(|&byte| starts_name(byte)) {
            return &[];
        }
        let length = rest.iter().position(|&byte| !is_name_byte(byte));
        &rest[..length.unwrap_or(rest.len())]
    }

    pub fn pass(&mut self, word: &[u8]) {
        self.at += word.len();
    }

    pub fn expect_word(&mut self, word: &[u8]) -> Result<(), Refusal> {
        self.skip_blanks()?;
        if self.word() != word {
            return Err(self.refuse(NOT_EXPECTED));
        }
        self.pass(word);
        Ok(())
    }

    /// Stops in front of a name, so that later faults of that name have its place.
    pub fn name(&mut self) -> Result<&'t [u8], Refusal> {
        self.skip_blanks()?;
        let word = self.word();
        if word.is_empty() || is_keyword(word) {
            return Err(self.refuse(NOT_EXPECTED));
        }
        if word.len() > NAME_BYTES {
            return Err(self.refuse(NAME_TOO_LONG));
        }
        Ok(word)
    }

    pub fn expect(&mut self, byte: u8) -> Result<(), Refusal> {
        self.expect_one_of(&[byte]).map(|_| ())
    }

    pub fn expect_one_of(&mut self, bytes: &[u8]) -> Result<u8, Refusal> {
        self.skip_blanks()?;
        match self.byte() {
            Some(byte) if bytes.contains(&byte) => {
                self.advance();
                Ok(byte)
            }
            _ => Err(self.refuse(NOT_EXPECTED)),
        }
    }
}
