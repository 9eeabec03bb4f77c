//! Reading: document 01's tables and the cases that it checks by hand.

mod common;

use bankplover::{read, Reading, Refusal, AREA};
use common::{text, KEEP, KEEP_TABLE, MIX, PAR, TAKE};

fn refused(text: &str, number: u8, place: usize) {
    let mut area = [7; AREA];
    let answer = read(text.as_bytes(), 0, &mut area);
    assert_eq!(answer, Err(Refusal { number, place }), "{text}");
    assert_eq!(area, [7; AREA]);
}

fn table(text: &str) -> [u8; AREA] {
    let mut area = [7; AREA];
    let end = text.trim_end().len();
    assert_eq!(
        read(text.as_bytes(), 0, &mut area),
        Ok(Reading::Table(end)),
        "{text}"
    );
    area
}

#[test]
fn the_tables() {
    assert_eq!(table(KEEP), KEEP_TABLE.area());
    for known in [TAKE, MIX, PAR] {
        assert_eq!(table(&known.text()), known.area());
    }
}

#[test]
fn rows_that_contradict_and_rows_that_do_not() {
    let contradicting = text("c", b's', "0 ?:?:0; ? 1:?:1;");
    refused(&contradicting, 9, contradicting.find("? 1").unwrap());
    table(&text("c", b's', "b 1:0:0; 0 ?:1:1;"));
}

#[test]
fn a_pair_that_matches_nothing_and_one_that_matches_two() {
    let nothing = text("c", b's', "0 (00):?:0;");
    refused(&nothing, 8, nothing.find("(00)").unwrap());
    table(&text("c", b's', "0 (?0):?:0;"));
}

#[test]
fn the_end() {
    let mut area = [7; AREA];
    for blank in ["", " \t\r\n\x0c", "// none", "/* none */"] {
        assert_eq!(read(blank.as_bytes(), 0, &mut area), Ok(Reading::End));
    }
    assert_eq!(
        read(KEEP.as_bytes(), KEEP.len(), &mut area),
        Ok(Reading::End)
    );
    assert_eq!(area, [7; AREA]);
    let past = Err(Refusal {
        number: 3,
        place: KEEP.len(),
    });
    assert_eq!(read(KEEP.as_bytes(), KEEP.len() + 1, &mut area), past);
}

#[test]
fn area_and_length_come_first() {
    let refusal = |number, place| Err(Refusal { number, place });
    let long = vec![b'#'; 65_537];
    assert_eq!(read(&long, 0, &mut [0; AREA - 1]), refusal(10, 0));
    assert_eq!(read(&long, 0, &mut [0; AREA]), refusal(1, 65_536));
}

#[test]
fn columns_follow_the_port_list() {
    let turned = KEEP.replace("input en,d", "input d,en");
    assert_eq!(table(&turned), table(KEEP));
}
