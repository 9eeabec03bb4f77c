//! Document 01's table of symbols, value by value and change by change.

use bankplover::{change_matches, level_matches};

const VALUES: &[u8; 3] = b"01x";

#[test]
fn levels() {
    for (level, matched) in [
        (b'0', "0"),
        (b'1', "1"),
        (b'x', "x"),
        (b'b', "01"),
        (b'?', "01x"),
    ] {
        for &value in VALUES {
            let expected = matched.as_bytes().contains(&value);
            assert_eq!(level_matches(level, value), expected, "{level} {value}");
        }
    }
}

fn changes(symbol: &[u8; 2]) -> Vec<String> {
    let pairs = VALUES.iter().flat_map(|&v| VALUES.map(|w| (v, w)));
    let matched = pairs.filter(|&(v, w)| change_matches(*symbol, v, w));
    matched
        .map(|(v, w)| format!("{}{}", v as char, w as char))
        .collect()
}

#[test]
fn letters() {
    assert_eq!(changes(b"r\0"), ["01"]);
    assert_eq!(changes(b"f\0"), ["10"]);
    assert_eq!(changes(b"p\0"), ["01", "0x", "x1"]);
    assert_eq!(changes(b"n\0"), ["10", "1x", "x0"]);
    assert_eq!(changes(b"*\0"), ["01", "0x", "10", "1x", "x0", "x1"]);
}

#[test]
fn pairs() {
    assert_eq!(changes(b"?0"), ["10", "x0"]);
    assert_eq!(changes(b"bx"), ["0x", "1x"]);
    assert_eq!(changes(b"bb"), ["01", "10"]);
    for nothing in [b"00", b"11", b"xx"] {
        assert!(changes(nothing).is_empty());
    }
}

#[test]
fn a_level_matches_no_change() {
    for level in b"01xb?" {
        assert!(changes(&[*level, 0]).is_empty());
    }
}
