//! P11 to P13 of document 01, and the square.

mod common;

use bankplover::{judge, square, Finding, Refusal, AREA};
use common::{dependent, Table, KEEP_TABLE, PAR, TAKE};

#[test]
fn p11_to_p13() {
    let keep = dependent("01 10 0 12 1 21 0");
    let take = dependent("00 11 0 12 1 21 0");
    assert_eq!(judge(&KEEP_TABLE.area()), Ok(keep));
    assert_eq!(judge(&TAKE.area()), Ok(take));
    assert_eq!(judge(&PAR.area()), Ok(Finding::Independent));
}

#[test]
fn squares() {
    let mut no = [[true; 9]; 9];
    assert_eq!(square(&PAR.area()), Ok(no));
    no[0][1] = false;
    no[1][0] = false;
    assert_eq!(square(&KEEP_TABLE.area()), Ok(no));
    assert_eq!(square(&TAKE.area()), Ok(no));
}

#[test]
fn inputs_that_are_not_neighbours() {
    let far = Table {
        name: "far",
        kind: b's',
        rows: &["0?r?0", "1?r?1", "*???-", "?*??-", "??f?-"],
    };
    let mut area = far.area();
    for (k, pair) in [b"?x", b"x?"].into_iter().enumerate() {
        let place = 37 + 20 * (5 + k);
        area[place..place + 20].copy_from_slice(b"?\0?\0..\0\0\0\0\0\0\0\0\0\0\0\0?-");
        area[place + 4..place + 6].copy_from_slice(pair);
    }
    area[36] = 7;
    assert_eq!(judge(&area), Ok(dependent("000 101 0 132 1 312 0")));
    let mut no = [[true; 9]; 9];
    no[0][2] = false;
    no[2][0] = false;
    assert_eq!(square(&area), Ok(no));
}

#[test]
fn one_input_is_always_independent() {
    let rows: [&[&str]; 4] = [
        &["r?0", "f?1"],
        &["001", "110"],
        &["*01", "*1x", "*x0"],
        &["b?-", "x?-"],
    ];
    for rows in rows {
        let table = Table {
            name: "one",
            kind: b's',
            rows,
        };
        assert_eq!(judge(&table.area()), Ok(Finding::Independent));
        assert_eq!(square(&table.area()), Ok([[true; 9]; 9]));
    }
}

#[test]
fn refusals() {
    let refused = Refusal {
        number: 10,
        place: 0,
    };
    for area in [&[][..], &[0; AREA], &[b'0'; AREA + 1]] {
        assert_eq!(judge(area), Err(refused));
        assert_eq!(square(area), Err(refused));
    }
}
