//! The lister as a program: whole libraries on its standard input, its output compared byte by byte.

use second::compare::{same_bytes, show, Mismatch, Outcome, Stats};
use second::generate::random::Random;
use second::generate::{tables, texts};
use second::lister::list;
use std::io::{self, ErrorKind, Write};
use std::process::{Command, Stdio};

const RUNS: u64 = 1_000;
/// Most sound primitives before the last text of a run.
const MOST: u64 = 40;
const ROOM: usize = 55_000;

/// Every run is one process. It reads sound primitives and then one text of any kind, since the first
/// refusal ends a run.
pub fn compare(program: &[&str]) -> Outcome {
    let mut stats = Stats::default();
    for seed in 1..=RUNS {
        run(&mut stats, program, seed)?;
    }
    Ok(stats)
}

fn run(stats: &mut Stats, program: &[&str], seed: u64) -> Result<(), Mismatch> {
    let random = &mut Random::new(seed);
    let mut text = Vec::new();
    let mut sound = 0;
    while sound < seed % (MOST + 1) && text.len() < ROOM {
        text.extend(primitive(random));
        sound += 1;
    }
    text.extend(texts::case(random).text);
    let ours = list(&text);
    let theirs = listed(program, &text).unwrap_or_else(|error| error.to_string().into_bytes());
    same_bytes("the lister", seed, || show(&text), &ours, &theirs)?;
    (0..sound).for_each(|_| stats.note("sound before it"));
    stats.note(last_answer(&ours));
    Ok(())
}

fn primitive(random: &mut Random) -> Vec<u8> {
    let inputs = *random.pick(&[1, 2, 2, 2, 3, 3, 4]);
    let table = tables::sized(random, inputs);
    let mut text = texts::of_table(random, &table);
    text.push(b'\n');
    text
}

fn last_answer(output: &[u8]) -> String {
    let last = output.split(|&byte| byte == b'\n').rev().nth(1);
    match last.map(String::from_utf8_lossy) {
        Some(line) if line.starts_with("refused ") => {
            line.split(" at ").next().unwrap_or("").into()
        }
        _ => "listed to the end".to_string(),
    }
}

/// What a program writes when it is given these bytes.
pub fn listed(program: &[&str], text: &[u8]) -> io::Result<Vec<u8>> {
    let mut process = Command::new(program[0])
        .args(&program[1..])
        .stdin(Stdio::piped())
        .stdout(Stdio::piped())
        .spawn()?;
    let mut input = process.stdin.take().expect("it was asked for");
    match input.write_all(text) {
        Err(error) if error.kind() != ErrorKind::BrokenPipe => return Err(error),
        _ => drop(input),
    }
    let output = process.wait_with_output()?;
    match output.status.code() {
        Some(_) => Ok(output.stdout),
        None => Err(io::Error::other(format!("it ended by {}", output.status))),
    }
}
