//! The settled open points as texts: `^` marks the place of the refusal and is taken out first.

mod common;

use common::{combinational, sequential};
use second::reading::{find, Found};
use second::Refusal;

/// The text without its mark, and the mark's place.
fn unmarked(text: &str) -> (Vec<u8>, usize) {
    let place = text
        .find('^')
        .unwrap_or_else(|| panic!("no mark in {text}"));
    (text.replacen('^', "", 1).into_bytes(), place)
}

fn refused(number: u8, marked: &str) {
    let (text, place) = unmarked(marked);
    assert_eq!(find(&text, 0), Err(Refusal::new(number, place)), "{marked}");
}

fn accepted(text: &str) {
    let found = find(text.as_bytes(), 0);
    assert!(matches!(found, Ok(Found::Table(..))), "{text}: {found:?}");
}

fn rows_refused(number: u8, rows: &str) {
    refused(number, &sequential("p", rows));
}

fn rows_accepted(rows: &str) {
    accepted(&sequential("p", rows));
}

fn combinational_refused(number: u8, rows: &str) {
    refused(number, &combinational("p", rows));
}

const HEADER: &str = "primitive p(q,a,b);";
const ROWS: &str = "table 0 0:?:0; endtable endprimitive";

fn declarations_refused(number: u8, declarations: &str) {
    refused(number, &format!("{HEADER}{declarations} {ROWS}"));
}

fn initial_refused(number: u8, initial: &str) {
    declarations_refused(number, &format!("output q; reg q; input a,b; {initial}"));
}

#[test]
fn which_fault_comes_first() {
    rows_refused(8, "0 (0^r:?:0;");
    rows_refused(3, "0 (00^0):?:0;");
    rows_refused(3, "0 0:?:0; 0 0:?:1^:;");
    rows_refused(9, "0 0:?:0; ^0 0:?:1; )");
    rows_refused(8, "0 0:?:0; 0 0:?:^b;");
}

#[test]
fn end_of_text_and_starting_place() {
    refused(3, "primitive p(q,a) ^");
    refused(3, "primitive p(q,a); // c\n /* d */ ^");
    refused(3, "primitive^");
    refused(
        3,
        &format!("{HEADER}output q; input a,b; table 0 0:0; endtable // ^"),
    );
    assert_eq!(find(b"  ", 3), Err(Refusal::new(3, 2)));
    assert_eq!(find(b"  ", usize::MAX), Err(Refusal::new(3, 2)));
    assert_eq!(find(b"xx", 2), Ok(Found::End));
    assert_eq!(find(b"/* /*/", 0), Ok(Found::End));
    assert_eq!(find(b"// no end", 0), Ok(Found::End));
    assert_eq!(find(&[b' '; 65_536], 65_536), Ok(Found::End));
    assert_eq!(find(&[b' '; 65_537], 65_538), Err(Refusal::new(1, 65_536)));
}

#[test]
fn places_count_in_the_whole_text() {
    let text = format!("/* ){}zzz", common::par());
    let start = text.find("primitive").unwrap();
    let Ok(Found::Table(_, next)) = find(text.as_bytes(), start) else {
        panic!("a table")
    };
    assert_eq!(next, text.find("endprimitive").unwrap() + 12);
    assert_eq!(
        find(text.as_bytes(), next),
        Err(Refusal::new(3, text.len() - 3))
    );
}

#[test]
fn blanks_and_comments() {
    for blank in ["\x0b", "\0", "\u{80}", "/", "/ /", "\\"] {
        refused(3, &format!("^{blank}primitive p(q,a);"));
    }
    refused(2, "^/*/ primitive p(q,a);");
    refused(2, " /**/ ^/* /");
    refused(3, "/* /* */ ^*/ primitive");
    refused(3, "// primitive \r primitive \n^)");
    rows_refused(2, "0 *:?:^/* - ;");
    rows_refused(2, "0 (0^/* 1):?:0;");
    rows_refused(3, "0 0^/:?:0;");
    rows_accepted("0 *//c\n:?:0;");
    rows_accepted("0 */*c*/:?:0;");
    rows_accepted("0(0/**/ 1\t)\x0c:?://\r;\n0\r\n;");
}

#[test]
fn words() {
    refused(3, "^primitives p(q,a);");
    refused(3, "^Primitive p(q,a);");
    refused(3, "^primitivep(q,a);");
    declarations_refused(3, "^outputq;");
    declarations_refused(
        3,
        "output q; input a,b; reg q; ^table0 0:?:0; endtable endprimitive",
    );
    rows_refused(3, "0 0:?:0; ^endtables");
    rows_refused(3, "0 0:?:0; endtable ^endprimitive$");
    rows_refused(3, "0 0:?:0; endtable ^;");
    accepted("primitive p(q,a);output q;input a;table?:0;endtable endprimitive");
    accepted("primitive p(q,a);output q;reg q;input a;table(01):?:0;endtable endprimitive");
}

#[test]
fn names() {
    let long = "n".repeat(33);
    let fits = "n".repeat(32);
    refused(4, &format!("primitive ^{long}(q,a);"));
    refused(4, &format!("primitive p(^{long},a);"));
    refused(4, &format!("primitive p(q,^{long});"));
    declarations_refused(4, &format!("output ^{long};"));
    declarations_refused(4, &format!("reg ^{long};"));
    declarations_refused(4, &format!("input a,^{long};"));
    initial_refused(4, &format!("initial ^{long} = 0;"));
    declarations_refused(3, &format!("^{long}"));
    refused(3, &format!("^{long}"));
    accepted(&sequential(&fits, "0 0:?:0;"));
    accepted("primitive a(module,a);output module;input a;table 0:0;endtable endprimitive");
    refused(3, "primitive ^table(q,a);");
    refused(3, "primitive p(^reg,a);");
    refused(3, "primitive p(q,^9);");
    refused(3, "primitive p(q,^$a);");
    refused(3, "primitive ^\\p (q,a);");
    declarations_refused(3, "output ^input;");
}

#[test]
fn header() {
    refused(3, "primitive p(q^);");
    refused(3, "primitive p(^);");
    refused(3, "primitive p(q,^);");
    refused(3, "primitive p(q ^a);");
    refused(3, "primitive p^;");
    refused(3, "primitive p(q,a) ^output q;");
    refused(5, "primitive p(q,^q);");
    refused(5, "primitive p(q,a,b,^a);");
    refused(6, "primitive p(q,a,b,c,d,e,f,g,h,i,^j);");
    refused(5, "primitive p(q,a,b,c,d,e,f,g,h,i,^a);");
    refused(
        4,
        &format!("primitive p(q,a,b,c,d,e,f,g,h,i,^{});", "j".repeat(33)),
    );
    refused(3, "primitive p(q,a,b,c,d,e,f,g,h,i,^table);");
    refused(
        5,
        "primitive p(q,a,b,c,d,e,f,g,h,i); input a,b,c,d,e,f,g,h,i,^j;",
    );
}

#[test]
fn declarations() {
    declarations_refused(3, "output q^,a;");
    declarations_refused(3, "output ^reg q;");
    declarations_refused(3, "input ^;");
    declarations_refused(3, "input a,^;");
    declarations_refused(3, "input a ^b;");
    declarations_refused(3, "reg q^,q;");
    declarations_refused(5, "output ^a;");
    declarations_refused(5, "output ^z;");
    declarations_refused(5, "output q; output ^q;");
    declarations_refused(5, "reg q; reg ^q;");
    declarations_refused(5, "reg ^a;");
    declarations_refused(5, "input a,^a;");
    declarations_refused(5, "input a; input b,^a;");
    declarations_refused(5, "input ^q;");
    declarations_refused(5, "input ^z;");
    accepted(&format!(
        "{HEADER} reg q; input b; output q; input a; {ROWS}"
    ));
}

#[test]
fn undeclared_ports() {
    refused(5, &format!("{HEADER} ^{ROWS}"));
    refused(5, &format!("{HEADER} reg q; input a,b; ^{ROWS}"));
    refused(5, &format!("{HEADER} output q; input b; ^{ROWS}"));
    declarations_refused(5, "output q; reg q; input b; ^initial q=0;");
    declarations_refused(3, "output q; input b; ^initial q=0;");
    declarations_refused(3, "output q; input a,b; ^initial q=0;");
    initial_refused(3, "initial q=0; ^input a;");
    initial_refused(3, "initial q=0; ^initial q=0;");
    initial_refused(5, "initial ^a=0;");
    initial_refused(5, "initial ^z=0;");
    initial_refused(3, "initial q ^0;");
}

#[test]
fn starting_values() {
    for wrong in [
        "1'^c0",
        "1'b^2",
        "1 ^'b0",
        "1'^ b0",
        "0^1",
        "1'b0^x",
        "^x",
        "^'b0",
        "^2'b0",
        "1'b^z",
        "0^'b0",
        "1'b^",
        "1'^",
        "^",
        "1'b^//\n0",
        "1'^/**/b0",
        "1^0",
        "1'b1^1",
        "^b0",
        "^-",
    ] {
        initial_refused(3, &format!("initial q = {wrong};"));
    }
    refused(
        2,
        &format!("{HEADER} output q; reg q; input a,b; initial q = 1'^/*"),
    );
    refused(
        2,
        &format!("{HEADER} output q; reg q; input a,b; initial q = 1'b^/*/ ;"),
    );
    refused(
        2,
        &format!("{HEADER} output q; reg q; input a,b; initial q = 1^/*;"),
    );
    for (right, start) in [
        ("0", b'0'),
        ("1", b'1'),
        ("1'b0", b'0'),
        ("1'B1", b'1'),
        ("1'bx", b'x'),
        ("1'BX", b'x'),
        ("/**/1'bX\n", b'x'),
        ("1/**/", b'1'),
    ] {
        let text = format!("{HEADER} output q; reg q; input a,b; initial q = {right}; {ROWS}");
        assert_eq!(common::table(&text).start.byte(), start, "{right}");
    }
}

#[test]
fn beginnings_of_rows() {
    rows_refused(3, "r^eg");
    rows_refused(8, "p^rimitive");
    rows_refused(3, "^) 0:?:0;");
    rows_refused(3, "^;");
    rows_refused(3, "^2 0:?:0;");
    rows_refused(3, "^table");
    refused(
        3,
        &format!("{HEADER} output q; input a,b; table ^endtable endprimitive"),
    );
    rows_refused(7, "^: ?:0;");
    rows_refused(8, "^- 0:?:0;");
    rows_accepted("0 0:?:0;");
}

#[test]
fn columns() {
    rows_refused(7, "0^:?:0;");
    rows_refused(7, "0 0 ^0:?:0;");
    rows_refused(7, "0 0 ^-:?:0;");
    rows_refused(7, "0 0 ^(zz):?:0;");
    rows_refused(7, "0 r ^r:?:0;");
    rows_refused(3, "0 0 ^;");
    rows_refused(3, "0 ^;");
    rows_refused(3, "0 0 ^)");
    refused(
        3,
        &format!("{HEADER} output q; reg q; input a,b; table 0 ^"),
    );
    refused(
        3,
        &format!("{HEADER} output q; reg q; input a,b; table 0 0 ^"),
    );
}

#[test]
fn wrong_symbols() {
    for column in ["^-", "^(00)", "^(11)", "^(xx)", "^(xX)", "^(XX)"] {
        rows_refused(8, &format!("0 {column}:?:0;"));
    }
    for edge in ["r", "f", "p", "n", "*", "R", "(01)", "(??)"] {
        combinational_refused(8, &format!("0 ^{edge}:0;"));
        rows_refused(8, &format!("* ^{edge}:?:0;"));
        rows_refused(8, &format!("0 0:^{edge}:0;"));
        rows_refused(8, &format!("0 0:0:^{edge};"));
    }
    rows_refused(8, "0 0:^-:0;");
    rows_refused(8, "0 0:?:^b;");
    rows_refused(8, "0 0:?:^?;");
    combinational_refused(8, "0 0:^-;");
    rows_accepted("0 (bb):?:-; 0 (??):1:-;");
    rows_accepted("0 X:B:X;");
}

#[test]
fn inside_a_pair() {
    for symbol in ["r", "f", "p", "n", "*", "-", "R"] {
        rows_refused(8, &format!("0 (^{symbol}1):?:0;"));
        rows_refused(8, &format!("0 (0^{symbol}):?:0;"));
        rows_refused(8, &format!("0 0:(0^{symbol}):0;"));
        rows_refused(3, &format!("0 (01^{symbol}):?:0;"));
    }
    for other in ["(", ")", ":", ";", "z", "2", "/"] {
        rows_refused(3, &format!("0 (^{other}1):?:0;"));
        rows_refused(3, &format!("0 (0^{other}:?:0;"));
        combinational_refused(3, &format!("0 0:(0^{other}:?:0;"));
    }
    rows_refused(3, "0 (00^:?:0;");
    rows_refused(3, "0 (01^(:?:0;");
}

#[test]
fn states_and_outputs() {
    rows_refused(3, "0 0:^:0;");
    rows_refused(3, "0 0:?^;");
    rows_refused(3, "0 0:0^?:0;");
    rows_refused(3, "0 0:0^(01):0;");
    rows_refused(3, "0 0:?:0^-;");
    rows_refused(3, "0 0:?:0^:;");
    rows_refused(3, "0 0:?:^;");
    rows_refused(3, "0 0:?:^:0;");
    rows_refused(3, "0 0:?:0 ^endtable");
    rows_refused(3, "0 0^;");
    combinational_refused(8, "0 1:^?:0;");
    combinational_refused(3, "0 1:0^:0;");
    combinational_refused(3, "0 1:^;");
    combinational_refused(3, "0 1:^:0;");
}

#[test]
fn contradictions() {
    rows_refused(9, "0 0:0:0; ^0 0:0:-;");
    rows_refused(9, "0 0:0:x; 1 1:?:1; ^0 0:?:1;");
    rows_refused(9, "r 0:?:0; ^(?1) ?:?:1;");
    rows_refused(9, "* 0:?:0; ^(bx) b:1:1;");
    rows_accepted("(b0) 0:?:0; (0b) 0:?:1;");
    rows_accepted("r 0:?:0; f 0:?:1; p 1:?:x; (x0) 0:?:1;");
    rows_accepted("1 ?:?:1; ? r:?:0;");
    rows_accepted("r ?:?:1; ? r:?:0;");
    rows_accepted("0 0:?:X; 0 0:?:x;");
    rows_accepted("0 b:?:0; 0 x:?:1;");
    combinational_refused(9, "0 0:0; 1 1:0; ^? 0:1;");
}

#[test]
fn the_65th_row() {
    let rows = "0 0:?:0;\n".repeat(64);
    rows_accepted(&rows);
    for beginning in ["0 0:?:0;", ":", "-", "(", "R", "b", "*"] {
        rows_refused(6, &format!("{rows}^{beginning}"));
    }
    rows_refused(3, &format!("{rows}^)"));
}

#[test]
fn symbols_stay_as_written() {
    let table = common::table(&sequential("p", "R 0:B:X; (?B) x:0:-; ? (01):1:1;"));
    let bytes = |row: usize| {
        table.rows[row]
            .symbols
            .iter()
            .map(|s| s.bytes())
            .collect::<Vec<_>>()
    };
    assert_eq!(bytes(0), [*b"r\0", *b"0\0"]);
    assert_eq!(bytes(1), [*b"?b", *b"x\0"]);
    assert_eq!(bytes(2), [*b"?\0", *b"01"]);
    assert_eq!(table.rows[0].state.byte(), b'b');
    assert_eq!(table.rows[0].output.byte(), b'x');
}
