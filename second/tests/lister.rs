//! The lister, as a function and as a program.

mod common;

use common::{mix, par, take, KEEP};
use second::lister::list;
use std::io::Write;
use std::process::{Command, Stdio};

fn listed(text: &str) -> String {
    String::from_utf8(list(text.as_bytes())).unwrap()
}

#[test]
fn the_example_of_document_01() {
    assert_eq!(listed(KEEP), "keep 2 3 D 01 10 0 12 1 21 0\n");
}

#[test]
fn several_primitives_and_a_refusal_behind_them() {
    let text = format!("{}// c\n{}{}{KEEP}", take(), par(), mix());
    let lines = "take 2 4 D 00 11 0 12 1 21 0\npar 2 4 I\n";
    let all = listed(&text);
    assert!(all.starts_with(lines) && all.ends_with("keep 2 3 D 01 10 0 12 1 21 0\n"));
    assert_eq!(all.lines().count(), 4);
    let text = format!("{}{} module", take(), par());
    assert_eq!(
        listed(&text),
        format!("{lines}refused 3 at {}\n", text.len() - 6)
    );
}

#[test]
fn nothing_and_too_much() {
    assert_eq!(listed(""), "");
    assert_eq!(listed(" // nothing"), "");
    let long = format!("{}{}", par(), " ".repeat(65_536));
    assert_eq!(listed(&long), "refused 1 at 65536\n");
}

fn run(arguments: &[&str], input: &[u8]) -> (Vec<u8>, bool) {
    let mut child = Command::new(env!("CARGO_BIN_EXE_second"))
        .args(arguments)
        .stdin(Stdio::piped())
        .stdout(Stdio::piped())
        .stderr(Stdio::null())
        .spawn()
        .unwrap();
    // A program that needs no more input may close it early.
    let _ = child.stdin.take().unwrap().write_all(input);
    let output = child.wait_with_output().unwrap();
    (output.stdout, output.status.success())
}

#[test]
fn the_program_prints_what_the_function_gives() {
    for text in [KEEP.to_string(), par() + &take() + "/*", " ".repeat(65_536)] {
        assert_eq!(
            run(&["list"], text.as_bytes()),
            (list(text.as_bytes()), true)
        );
    }
    assert_eq!(
        run(&["list"], &[b' '; 200_000]),
        (b"refused 1 at 65536\n".to_vec(), true)
    );
}

#[test]
fn the_program_knows_no_other_words() {
    assert!(run(&["--help"], b"").0.starts_with(b"second list"));
    assert_eq!(run(&[], b""), (Vec::new(), false));
    assert_eq!(run(&["list", "more"], b""), (Vec::new(), false));
}
