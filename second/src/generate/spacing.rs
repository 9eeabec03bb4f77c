//! Blanks and comments between the tokens of a text.

use super::random::Random;
use super::source::Token;
use crate::name::is_name_byte;

#[derive(Clone, Copy)]
pub enum Style {
    /// Blanks only where two words would run together.
    Dense,
    Plain,
    /// Every kind of blank and comment, anywhere.
    Wild,
}

pub fn style(random: &mut Random) -> Style {
    *random.pick(&[Style::Dense, Style::Plain, Style::Plain, Style::Wild])
}

pub fn render(random: &mut Random, tokens: &[Token], style: Style) -> Vec<u8> {
    let mut text = Vec::new();
    for (k, token) in tokens.iter().enumerate() {
        let needed = k > 0 && runs_together(&tokens[k - 1], token);
        separate(random, &mut text, style, needed);
        text.extend(&token.bytes);
    }
    text
}

fn runs_together(left: &Token, right: &Token) -> bool {
    let last = left.bytes.last().is_some_and(|&byte| is_name_byte(byte));
    let first = right.bytes.first().is_some_and(|&byte| is_name_byte(byte));
    last && first && !(left.in_row && right.in_row)
}

fn separate(random: &mut Random, text: &mut Vec<u8>, style: Style, needed: bool) {
    let some = match style {
        Style::Dense => usize::from(needed),
        Style::Plain => usize::from(needed || random.one_in(3)),
        Style::Wild => usize::from(needed) + random.below(3),
    };
    for _ in 0..some {
        match style {
            Style::Wild => blank(random, text),
            _ => text.push(*random.pick(b"  \n")),
        }
    }
}

/// One blank of any kind, comments too.
pub fn blank(random: &mut Random, text: &mut Vec<u8>) {
    match random.below(8) {
        0 => {
            text.extend(b"//");
            text.extend(inside(random));
            text.push(b'\n');
        }
        1 => {
            text.extend(b"/*");
            text.extend(inside(random));
            text.extend(b"*/");
        }
        _ => text.push(*random.pick(b" \t\r\n\x0c")),
    }
}

/// What may stand in either kind of comment: anything but LF and `*/`.
fn inside(random: &mut Random) -> Vec<u8> {
    let length = random.below(9);
    let mut bytes: Vec<u8> = (0..length).map(|_| comment_byte(random)).collect();
    for k in 1..bytes.len() {
        if bytes[k - 1..=k] == *b"*/" {
            bytes[k] = b'*';
        }
    }
    bytes
}

fn comment_byte(random: &mut Random) -> u8 {
    if random.one_in(2) {
        return *random.pick(b"/*;:0x endtable\r");
    }
    match random.byte() {
        b'\n' => b'/',
        byte => byte,
    }
}
