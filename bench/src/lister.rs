//! Both listers as programs, on a library of fifty primitives.

use crate::clock;
use second::generate::random::Random;
use second::generate::tables;
use second::print;
use std::io::Write;
use std::process::{Command, Stdio};

pub fn run(verified: &[&str], second: &[&str]) {
    for most in [3, 5, 7] {
        let text = library(most);
        assert_eq!(listed(verified, &text), listed(second, &text));
        clock::line(
            &format!("listing fifty primitives of 2 to {most} inputs"),
            || listed(verified, &text),
            || listed(second, &text),
        );
    }
    clock::line(
        "listing nothing",
        || listed(verified, b""),
        || listed(second, b""),
    );
}

fn library(most: usize) -> Vec<u8> {
    let random = &mut Random::new(7);
    let mut text = Vec::new();
    for k in 0..50 {
        let inputs = 2 + k % (most - 1);
        text.extend(print::text(&tables::holding(random, inputs)));
    }
    text
}

fn listed(program: &[&str], text: &[u8]) -> Vec<u8> {
    let mut process = Command::new(program[0])
        .args(&program[1..])
        .stdin(Stdio::piped())
        .stdout(Stdio::piped())
        .spawn()
        .expect("the lister's program runs");
    let mut input = process.stdin.take().expect("it was asked for");
    input.write_all(text).expect("the program reads all");
    drop(input);
    let output = process.wait_with_output().expect("the program ends");
    output.stdout
}
