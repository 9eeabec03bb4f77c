//! What the lister prints for a text.

use crate::book::{entry, Verdict};
use crate::judge::fast;
use crate::reading::{find, Found};

pub fn list(text: &[u8]) -> Vec<u8> {
    let mut out = Vec::new();
    let mut place = 0;
    loop {
        match find(text, place) {
            Ok(Found::End) => return out,
            Ok(Found::Table(table, next)) => {
                let verdict = Verdict::of(&table, fast::finding(&table));
                out.extend(entry::fields(&verdict).expect("a judged table fits the layout"));
                out.push(b'\n');
                place = next;
            }
            Err(refusal) => {
                out.extend(format!("{refusal}\n").bytes());
                return out;
            }
        }
    }
}
