//! Step by step against Icarus Verilog: walks of single-input changes over primitives by chance.

mod verilog;
mod walk;

use second::area::encode;
use second::compare::{same, Mismatch, Outcome, Stats};
use second::generate::random::Random;
use second::print;
use std::path::Path;
use std::process::Command;
use std::{env, fs, io, process};
use walk::Walk;

const PRIMITIVES: u64 = 200;
const STEPS: usize = 80;
const LEFT_OUT: &str = "rows left out, since Icarus crashes on (b?) and on a second place b";

/// The library's outputs are ours here, those of Icarus theirs.
pub fn compare() -> io::Result<Outcome> {
    let walks: Vec<Walk> = (1..=PRIMITIVES)
        .map(|seed| Walk::new(&mut Random::new(seed), STEPS))
        .collect();
    let output = simulate(&verilog::text(&walks))?;
    let lines: Vec<&str> = output.lines().collect();
    if lines.len() != walks.len() * STEPS {
        let message = format!("Icarus wrote {} lines: {output:.200}", lines.len());
        return Err(io::Error::other(message));
    }
    let outcome = compare_all(&walks, &lines);
    Ok(outcome.map(|stats| with_left_out(stats, &walks)))
}

/// They are told, but are no steps that agree.
fn with_left_out(mut stats: Stats, walks: &[Walk]) -> Stats {
    let rows = walks.iter().map(|walk| walk.left_out).sum();
    stats.answers.insert(LEFT_OUT.to_string(), rows);
    stats
}

fn compare_all(walks: &[Walk], lines: &[&str]) -> Outcome {
    let mut stats = Stats::default();
    for (k, (walk, outputs)) in walks.iter().zip(lines.chunks(STEPS)).enumerate() {
        compare_walk(&mut stats, k as u64 + 1, walk, outputs)?;
    }
    Ok(stats)
}

fn compare_walk(
    stats: &mut Stats,
    seed: u64,
    walk: &Walk,
    outputs: &[&str],
) -> Result<(), Mismatch> {
    let area = encode(&walk.table);
    let mut prev = vec![b'x'; walk.table.inputs];
    let mut old = walk.table.start.byte();
    for (&(input, value), theirs) in walk.changes.iter().zip(outputs) {
        let mut cur = prev.clone();
        cur[input] = value;
        let ours = bankplover::evaluate(&area, &prev, &cur, old, &[input as u8 + 1]);
        let text = || {
            let [prev, cur] = [&prev, &cur].map(|vector| String::from_utf8_lossy(vector));
            let table = String::from_utf8_lossy(&print::text(&walk.table)).into_owned();
            format!("{prev} to {cur}, old output {}, {table}", old as char)
        };
        let told = ours.map(|output| (output as char).to_string());
        same("a step", seed, text, &told, &Ok(theirs.to_string()))?;
        stats.note(*theirs);
        (prev, old) = (cur, theirs.as_bytes()[0]);
    }
    Ok(())
}

/// Compiles one file and runs it once.
fn simulate(text: &str) -> io::Result<String> {
    let folder = env::temp_dir().join(format!("bankplover-icarus-{}", process::id()));
    fs::create_dir_all(&folder)?;
    let written = fs::write(folder.join("walks.v"), text);
    let output = written.and_then(|()| run_both(&folder));
    fs::remove_dir_all(&folder)?;
    output
}

fn run_both(folder: &Path) -> io::Result<String> {
    run(folder, "iverilog", &["-o", "walks.vvp", "walks.v"])?;
    run(folder, "vvp", &["-n", "walks.vvp"])
}

fn run(folder: &Path, program: &str, words: &[&str]) -> io::Result<String> {
    let output = Command::new(program)
        .args(words)
        .current_dir(folder)
        .output()?;
    if !output.status.success() {
        let said = String::from_utf8_lossy(&output.stderr).into_owned();
        let message = format!("{program} ended with {}: {said:.400}", output.status);
        return Err(io::Error::other(message));
    }
    Ok(String::from_utf8_lossy(&output.stdout).into_owned())
}
