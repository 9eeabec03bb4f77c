//! Every case of document 01's "Checked by hand".

mod common;

use common::{area, combinational, dependent, mix, par, sequential, take, KEEP};
use second::book::{append, entry, open, Opened, Verdict};
use second::evaluation::evaluate;
use second::judge::{judge, judge_plainly, Finding};
use second::reading::{find, Found};
use second::symbol::{Edge, Level};
use second::value::Value;
use second::Refusal;

fn output(text: &str, prev: &str, cur: &str, old: u8, order: &[u8]) -> char {
    evaluate(&area(text), prev.as_bytes(), cur.as_bytes(), old, order).unwrap() as char
}

#[test]
fn p1_p2_p3_keep() {
    assert_eq!(output(KEEP, "01", "10", b'0', &[1, 2]), '1');
    assert_eq!(output(KEEP, "01", "10", b'0', &[2, 1]), '0');
    assert_eq!(output(KEEP, "01", "10", b'0', &[]), '0');
}

#[test]
fn p4_p5_keep() {
    assert_eq!(output(KEEP, "00", "0x", b'1', &[1, 2]), 'x');
    assert_eq!(output(KEEP, "01", "01", b'x', &[1, 2]), 'x');
}

#[test]
fn p6_p7_p8_take() {
    assert_eq!(output(&take(), "00", "11", b'x', &[1, 2]), '1');
    assert_eq!(output(&take(), "00", "11", b'x', &[2, 1]), '0');
    assert_eq!(output(&take(), "0x", "01", b'0', &[1, 2]), 'x');
}

#[test]
fn p9_p10_mix() {
    assert_eq!(output(&mix(), "10", "11", b'0', &[1, 2]), '1');
    assert_eq!(output(&mix(), "00", "01", b'1', &[1, 2]), '0');
}

#[test]
fn p11_p12_p13_verdicts() {
    let keep = dependent("01 10 0 12 1 21 0");
    let take_finding = dependent("00 11 0 12 1 21 0");
    for (text, finding) in [
        (KEEP.to_string(), keep),
        (take(), take_finding),
        (par(), Finding::Independent),
    ] {
        assert_eq!(judge(&area(&text)).unwrap().finding, finding);
        assert_eq!(judge_plainly(&area(&text)).unwrap().finding, finding);
    }
}

fn keep_verdict() -> Verdict {
    let finding = dependent("01 10 0 12 1 21 0");
    Verdict {
        name: b"keep".to_vec(),
        inputs: 2,
        rows: 3,
        finding,
    }
}

fn par_verdict() -> Verdict {
    Verdict {
        name: b"par".to_vec(),
        inputs: 2,
        rows: 4,
        finding: Finding::Independent,
    }
}

#[test]
fn p14_keep_and_torn_bytes() {
    let mut book = b"keep 2 3 D 01 10 0 12 1 21 0 @00000\n".to_vec();
    assert_eq!(entry::write(&keep_verdict(), 0).unwrap(), book);
    assert_eq!(book.len(), 36);
    book.extend(b"par 2 4 I ");
    assert_eq!(
        open(&book, 46),
        Ok(Opened {
            count: 1,
            good: 36,
            torn: 10
        })
    );
}

#[test]
fn par_after_keep_makes_53_bytes() {
    let mut book = [0; 60];
    assert_eq!(append(&mut book, 0, &keep_verdict()), Ok(36));
    assert_eq!(append(&mut book, 36, &par_verdict()), Ok(53));
    assert_eq!(&book[36..53], b"par 2 4 I @00036\n");
    assert_eq!(book[53..], [0; 7]);
}

/// A sound book of exactly `length` bytes, made of `I` entries of varying names.
fn book_of(length: usize) -> Vec<u8> {
    let mut book = Vec::new();
    while book.len() < length {
        let left = length - book.len();
        let name = if left >= 60 {
            16
        } else if left > 46 {
            1
        } else {
            left - 14
        };
        let line = format!("{} 1 1 I @{:05}\n", "n".repeat(name), book.len());
        book.extend(line.bytes());
    }
    assert_eq!(book.len(), length);
    book
}

#[test]
fn the_36_byte_entry_fits_at_65500_and_not_at_65501() {
    let mut book = book_of(65_500);
    book.resize(70_000, 0);
    assert_eq!(append(&mut book, 65_500, &keep_verdict()), Ok(65_536));
    let mut book = book_of(65_501);
    book.resize(70_000, 0);
    assert_eq!(
        append(&mut book, 65_501, &keep_verdict()),
        Err(Refusal::new(15, 65_501))
    );
}

#[test]
fn rows_that_contradict_and_rows_that_do_not() {
    let text = sequential("c", "0 ?:?:0;\n? 1:?:1;");
    let later = text.find("? 1").unwrap();
    assert_eq!(find(text.as_bytes(), 0), Err(Refusal::new(9, later)));
    area(&sequential("c", "b 1:0:0; 0 ?:1:1;"));
}

#[test]
fn pairs_that_match_nothing_and_one_that_matches_two() {
    let text = sequential("c", "0 (00):?:0;");
    let pair = text.find("(00)").unwrap();
    assert_eq!(find(text.as_bytes(), 0), Err(Refusal::new(8, pair)));
    let edge = Edge::Pair(Level::Any, Level::Zero);
    let matched: Vec<(u8, u8)> = Value::ALL
        .iter()
        .flat_map(|&v| Value::ALL.iter().map(move |&w| (v, w)))
        .filter(|&(v, w)| edge.matches(v, w))
        .map(|(v, w)| (v.byte(), w.byte()))
        .collect();
    assert_eq!(matched, [(b'1', b'0'), (b'x', b'0')]);
}

#[test]
fn empty_text_and_empty_book() {
    assert_eq!(find(b"", 0), Ok(Found::End));
    assert_eq!(
        open(b"", 0),
        Ok(Opened {
            count: 0,
            good: 0,
            torn: 0
        })
    );
    assert_eq!(open(b"\n", 1), Err(Refusal::new(13, 0)));
}

#[test]
fn one_input_is_always_independent() {
    let rows = [
        "r:?:0; f:?:1;",
        "0:0:1; 1:1:0;",
        "*:0:1; *:1:x; *:x:0;",
        "b:?:-; x:?:-;",
    ];
    for rows in rows {
        let text = format!(
            "primitive p(q,a); output q; reg q; input a; table {rows} endtable endprimitive"
        );
        assert_eq!(judge(&area(&text)).unwrap().finding, Finding::Independent);
        assert_eq!(
            judge_plainly(&area(&text)).unwrap().finding,
            Finding::Independent
        );
    }
}

#[test]
fn the_plausible_errors_are_not_made() {
    let x_is_no_wildcard = combinational("p", "b ?:1; ? b:1;");
    assert_eq!(output(&x_is_no_wildcard, "0x", "xx", b'0', &[1]), 'x');
    let far_apart = "primitive p(q,a,b,c); output q; reg q; input a,b,c; table
        0 ? r:?:0; 1 ? r:?:1; * ? ?:?:-; ? * ?:?:-; ? ? (?0):?:-; ? ? (?x):?:-; ? ? (x1):?:-;
        endtable endprimitive";
    let judged = judge(&area(far_apart)).unwrap();
    assert_eq!(judged.finding, dependent("000 101 0 132 1 312 0"));
    let no: Vec<(usize, usize)> = (0..81).map(|k| (k / 9, k % 9)).collect();
    let no: Vec<_> = no
        .into_iter()
        .filter(|&(i, j)| !judged.square[i][j])
        .collect();
    assert_eq!(no, [(0, 2), (2, 0)]);
}

#[test]
fn the_longest_entry_has_93_bytes() {
    let finding = dependent("000000000 110000000 x 123456789 1 213456789 0");
    let verdict = Verdict {
        name: vec![b'n'; 32],
        inputs: 9,
        rows: 64,
        finding,
    };
    assert_eq!(entry::write(&verdict, 65_000).unwrap().len(), 93);
}
