//! The clock: two sides in turn, the best round of each.

use std::hint::black_box;
use std::time::{Duration, Instant};

const ROUND: Duration = Duration::from_millis(8);
const MOST_ROUNDS: u32 = 15;
/// About what all rounds of a long call may take.
const ALL_ROUNDS: Duration = Duration::from_millis(1_000);

pub fn head() {
    println!(
        "{:<68} {:>12} {:>12} {:>7}",
        "best of up to 15, in microseconds", "verified", "second", "ratio"
    );
}

/// Measures both sides and prints one line.
pub fn line<A, B>(what: &str, verified: impl FnMut() -> A, second: impl FnMut() -> B) {
    let mut sides = (Side::new(verified), Side::new(second));
    for _ in 0..sides.0.rounds().min(sides.1.rounds()) {
        sides.0.round();
        sides.1.round();
    }
    let (verified, second) = (sides.0.best, sides.1.best);
    let ratio = verified / second;
    println!("{what:<68} {verified:>12.2} {second:>12.2} {ratio:>7.2}");
}

struct Side<F> {
    call: F,
    once: Duration,
    repeats: u32,
    best: f64,
}

impl<A, F: FnMut() -> A> Side<F> {
    /// So many repeats that a round is long enough for the clock.
    fn new(mut call: F) -> Side<F> {
        let begun = Instant::now();
        black_box(call());
        let once = begun.elapsed().max(Duration::from_nanos(20));
        let repeats = (ROUND.as_nanos() / once.as_nanos()).clamp(1, 100_000) as u32;
        Side {
            call,
            once,
            repeats,
            best: f64::INFINITY,
        }
    }

    fn rounds(&self) -> u32 {
        let most = ALL_ROUNDS.as_nanos() / self.once.as_nanos();
        (most as u32).clamp(2, MOST_ROUNDS)
    }

    fn round(&mut self) {
        let begun = Instant::now();
        for _ in 0..self.repeats {
            black_box((self.call)());
        }
        let each = begun.elapsed().as_secs_f64() * 1e6 / f64::from(self.repeats);
        self.best = self.best.min(each);
    }
}
