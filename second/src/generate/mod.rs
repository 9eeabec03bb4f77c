//! Seeded generators: every case comes back from its seed.

pub mod areas;
pub mod books;
pub mod damage;
pub mod faults;
pub mod independent;
pub mod lines;
pub mod names;
pub mod random;
pub mod source;
pub mod spacing;
pub mod tables;
pub mod texts;
pub mod vectors;
pub mod verdicts;
