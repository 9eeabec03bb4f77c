//! P1 to P10 of document 01, refusals 10 to 12, and which areas are well formed.

mod common;

use bankplover::{evaluate, is_well_formed, Refusal, AREA};
use common::{Table, KEEP_TABLE, MIX, PAR, TAKE};

fn output(table: &Table, prev: &str, cur: &str, old: u8, order: &[u8]) -> char {
    let answer = evaluate(&table.area(), prev.as_bytes(), cur.as_bytes(), old, order);
    answer.unwrap() as char
}

#[test]
fn p1_to_p5_keep() {
    assert_eq!(output(&KEEP_TABLE, "01", "10", b'0', &[1, 2]), '1');
    assert_eq!(output(&KEEP_TABLE, "01", "10", b'0', &[2, 1]), '0');
    assert_eq!(output(&KEEP_TABLE, "01", "10", b'0', &[]), '0');
    assert_eq!(output(&KEEP_TABLE, "00", "0x", b'1', &[1, 2]), 'x');
    assert_eq!(output(&KEEP_TABLE, "01", "01", b'x', &[1, 2]), 'x');
}

#[test]
fn p6_to_p8_take() {
    assert_eq!(output(&TAKE, "00", "11", b'x', &[1, 2]), '1');
    assert_eq!(output(&TAKE, "00", "11", b'x', &[2, 1]), '0');
    assert_eq!(output(&TAKE, "0x", "01", b'0', &[1, 2]), 'x');
}

#[test]
fn p9_and_p10_mix() {
    assert_eq!(output(&MIX, "10", "11", b'0', &[1, 2]), '1');
    assert_eq!(output(&MIX, "00", "01", b'1', &[1, 2]), '0');
}

#[test]
fn refusals_in_their_order() {
    let area = KEEP_TABLE.area();
    let refused = |number, place| Err(Refusal { number, place });
    assert_eq!(evaluate(&[], b"2", b"", b'2', &[3]), refused(10, 0));
    assert_eq!(evaluate(&area, b"0X", b"00", b'0', &[3]), refused(11, 0));
    assert_eq!(evaluate(&area, b"00", b"0", b'0', &[]), refused(11, 0));
    assert_eq!(evaluate(&area, b"00", b"00", b'-', &[]), refused(11, 0));
    assert_eq!(evaluate(&area, b"00", b"01", b'0', &[2, 2]), refused(12, 1));
    assert_eq!(evaluate(&area, b"00", b"01", b'0', &[3, 3]), refused(12, 0));
    assert_eq!(evaluate(&area, b"00", b"01", b'0', &[1, 0]), refused(12, 1));
}

#[test]
fn well_formed_areas() {
    for table in [KEEP_TABLE, TAKE, MIX, PAR] {
        assert!(is_well_formed(&table.area()));
    }
    let contradicting = Table {
        name: "c",
        kind: b's',
        rows: &["0??0", "?1?1"],
    };
    assert!(!is_well_formed(&contradicting.area()));
    let accepted = Table {
        name: "c",
        kind: b's',
        rows: &["b100", "0?11"],
    };
    assert!(is_well_formed(&accepted.area()));
    assert!(!is_well_formed(&[]));
    assert!(!is_well_formed(&[0; AREA]));
    let mut stray = KEEP_TABLE.area();
    stray[AREA - 1] = 1;
    assert!(!is_well_formed(&stray));
}

#[test]
fn pairs_in_areas() {
    let mut area = TAKE.area();
    area[39..41].copy_from_slice(b"00");
    assert!(!is_well_formed(&area));
    area[39..41].copy_from_slice(b"?1");
    assert!(is_well_formed(&area));
}
