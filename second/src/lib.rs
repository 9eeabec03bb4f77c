//! Order verdicts for user-defined primitives, written a second time, sharing nothing with the verified side.

pub mod area;
pub mod book;
pub mod compare;
pub mod contradiction;
pub mod evaluation;
pub mod generate;
pub mod judge;
pub mod limits;
pub mod lister;
pub mod name;
pub mod print;
pub mod reading;
pub mod refusal;
pub mod symbol;
pub mod table;
pub mod value;

pub use refusal::Refusal;
