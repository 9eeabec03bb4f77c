//! How much stack the judge uses: the stack below is painted, the judge called, and the deepest byte that has lost its
//! paint is looked for. That reads below the stack's end, which only a measurement may do.

use crate::shapes::{DEPENDENT, INDEPENDENT};
use second::area::encode;
use std::hint::black_box;
use std::thread::Builder;

const ROOM: usize = 4 << 20;
const EDGE: usize = 4 << 10;
const PAINT: u8 = 0xa5;

pub fn run() {
    for inputs in [2, 5, 9] {
        for (name, make) in INDEPENDENT.into_iter().chain(DEPENDENT) {
            let table = make(inputs, 64);
            if table.rows.len() == 64 {
                line(
                    &format!("{inputs} inputs, 64 rows, {name}"),
                    encode(&table).to_vec(),
                );
            }
        }
    }
}

fn line(what: &str, area: Vec<u8>) {
    let measure = move || {
        [
            deepest(|| {
                let _ = black_box(bankplover::judge(&area));
            }),
            deepest(|| {
                let _ = black_box(bankplover::square(&area));
            }),
        ]
    };
    let thread = Builder::new().stack_size(3 * ROOM).spawn(measure);
    let [judging, square] = thread.expect("a thread").join().expect("it ends");
    println!("stack of judging, {what}: {judging} bytes; of the square: {square} bytes");
}

fn deepest(call: impl Fn()) -> usize {
    paint();
    let before = lost();
    call();
    lost().max(before)
}

#[inline(never)]
fn paint() {
    let mut room = [PAINT; ROOM];
    black_box(&mut room);
}

#[inline(never)]
fn lost() -> usize {
    let mark = 0u8;
    let here = black_box(&mark) as *const u8 as usize;
    let painted = |depth: usize| unsafe { ((here - depth) as *const u8).read_volatile() == PAINT };
    (0..ROOM - EDGE)
        .rev()
        .find(|&depth| !painted(depth))
        .unwrap_or(0)
}
