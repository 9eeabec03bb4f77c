//! Reading: generated texts, and every prefix and every change of one byte of a dozen texts.

use crate::report::{part, Comparison};
use crate::verified;
use second::area::SIZE;
use second::compare::reading::{compare_read, compare_reading, compare_text};
use second::compare::{Outcome, Stats};
use second::generate::random::Random;
use second::generate::texts;

pub const COMPARISON: Comparison = Comparison {
    name: "reading",
    parts: &[
        part("generated", 20_000, |seed, count| {
            compare_reading(seed, count, &verified::read)
        }),
        part("libraries", 200, libraries),
        part("prefixes", 0, |_, _| of_each(every_prefix)),
        part("bytes", 0, |_, _| of_each(every_byte)),
    ],
};

/// A dozen short texts that between them have every kind of token, row and blank.
const TEXTS: [&str; 12] = [
    "primitive k(q,d,e);output q;reg q;input e,d;table\n? 0:?:-;0 1:?:0;1 1:?:1;endtable endprimitive",
    "primitive t(q,d,c);output q;reg q;input d,c;table 0 r:?:0;1 R:?:1;? n:?:-;* ?:?:-;endtable endprimitive ",
    "primitive m(q,a,b);output q;reg q;input a;input b;table 1 ?:?:1;? r:?:0;endtable\nendprimitive",
    "primitive p(q,a,b);output q;input a,b;table 0 0:0;0 1:1;1 0:1;1 1:0;endtable endprimitive",
    "primitive i(q,a);reg q;output q;input a;initial q=1'b0;table(01):?:1;(1 x):0:X;endtable endprimitive",
    "primitive j(q,a);input a;output q;reg q;initial q = 1 ;table f:b:-;p:x:0;endtable endprimitive",
    "// c\nprimitive/*c*/x(q,x);output q;input x;table/**/B:0;x:1;//e\nendtable endprimitive//",
    "primitive w(q,a,b);output q;reg q;input b,a;table(?b)b:1:1;b(x?):0:0;*//\n?:X:x;endtable endprimitive",
    "\t\r\n\x0c /* only * blanks / */ // and comments",
    "primitive n(q,a,b,c,d,e,f,g,h,i);output q;input a,b,c,d,e,f,g,h,i;table 01xb?01xb:x;endtable endprimitive",
    "primitive c(q,a,b);output q;reg q;input a,b;table 0 ?:?:0;? 1:?:1;endtable endprimitive",
    "primitive $q(q,a);output q;input a;table 0:0;endtable endprimitive",
];

/// Whole texts, read from primitive to primitive.
fn libraries(seed: u64, count: usize) -> Outcome {
    let mut stats = Stats::default();
    for k in 0..count as u64 {
        let text = texts::library(&mut Random::new(seed.wrapping_add(k)));
        stats.add(compare_text(&text, &verified::read)?);
    }
    Ok(stats)
}

fn of_each(one: impl Fn(&mut Stats, &[u8]) -> Result<(), second::compare::Mismatch>) -> Outcome {
    let mut stats = Stats::default();
    for text in TEXTS {
        one(&mut stats, text.as_bytes())?;
    }
    Ok(stats)
}

fn every_prefix(stats: &mut Stats, text: &[u8]) -> Result<(), second::compare::Mismatch> {
    for length in 0..=text.len() {
        let prefix = &text[..length];
        for start in [0, length / 2, length, length + 1] {
            stats.note(compare_read(0, prefix, start, &[7; SIZE], &verified::read)?);
        }
    }
    Ok(())
}

fn every_byte(stats: &mut Stats, text: &[u8]) -> Result<(), second::compare::Mismatch> {
    let mut changed = text.to_vec();
    for place in 0..text.len() {
        for byte in 0..=255 {
            changed[place] = byte;
            stats.note(compare_read(0, &changed, 0, &[7; SIZE], &verified::read)?);
        }
        changed[place] = text[place];
    }
    Ok(())
}
