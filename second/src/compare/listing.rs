//! The lister's whole output.

use super::{cases, same_bytes, show, Outcome};
use crate::generate::texts;
use crate::lister::list;

pub type List<'a> = dyn Fn(&[u8]) -> Vec<u8> + 'a;

pub fn compare_listing(seed: u64, count: usize, other: &List) -> Outcome {
    cases(seed, count, |seed, random| {
        let text = texts::case(random).text;
        let ours = list(&text);
        same_bytes("listing", seed, || show(&text), &ours, &other(&text))?;
        let refused = ours.windows(8).any(|word| word == b"refused ");
        Ok(if refused { "refused" } else { "listed" }.to_string())
    })
}
