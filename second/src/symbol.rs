//! The symbols of a table's columns and what each matches.

use crate::value::Value;

#[derive(Clone, Copy, PartialEq, Eq, Debug)]
pub enum Level {
    Zero,
    One,
    X,
    B,
    Any,
}

impl Level {
    pub const ALL: [Level; 5] = [Level::Zero, Level::One, Level::X, Level::B, Level::Any];

    pub fn byte(self) -> u8 {
        match self {
            Level::Zero => b'0',
            Level::One => b'1',
            Level::X => b'x',
            Level::B => b'b',
            Level::Any => b'?',
        }
    }

    /// Takes the small letters only; the reader of text turns capitals into them.
    pub fn from_byte(byte: u8) -> Option<Level> {
        Level::ALL.into_iter().find(|level| level.byte() == byte)
    }

    pub fn matches(self, value: Value) -> bool {
        match self {
            Level::Zero => value == Value::Zero,
            Level::One => value == Value::One,
            Level::X => value == Value::X,
            Level::B => value != Value::X,
            Level::Any => true,
        }
    }
}

#[derive(Clone, Copy, PartialEq, Eq, Debug)]
pub enum Edge {
    R,
    F,
    P,
    N,
    Star,
    Pair(Level, Level),
}

impl Edge {
    pub const LETTERS: [Edge; 5] = [Edge::R, Edge::F, Edge::P, Edge::N, Edge::Star];

    pub fn letter(byte: u8) -> Option<Edge> {
        match byte {
            b'r' => Some(Edge::R),
            b'f' => Some(Edge::F),
            b'p' => Some(Edge::P),
            b'n' => Some(Edge::N),
            b'*' => Some(Edge::Star),
            _ => None,
        }
    }

    pub fn matches(self, from: Value, to: Value) -> bool {
        use Value::{One, Zero, X};
        match self {
            Edge::R => (from, to) == (Zero, One),
            Edge::F => (from, to) == (One, Zero),
            Edge::P => [(Zero, One), (Zero, X), (X, One)].contains(&(from, to)),
            Edge::N => [(One, Zero), (One, X), (X, Zero)].contains(&(from, to)),
            Edge::Star => from != to,
            Edge::Pair(v, w) => from != to && v.matches(from) && w.matches(to),
        }
    }

    /// Only `(00)`, `(11)` and `(xx)` match no change at all.
    pub fn matches_nothing(self) -> bool {
        let pairs = Value::ALL
            .iter()
            .flat_map(|&v| Value::ALL.iter().map(move |&w| (v, w)));
        !pairs.into_iter().any(|(v, w)| self.matches(v, w))
    }
}

#[derive(Clone, Copy, PartialEq, Eq, Debug)]
pub enum Symbol {
    Level(Level),
    Edge(Edge),
}

impl Symbol {
    /// The two bytes of a column in an area.
    pub fn bytes(self) -> [u8; 2] {
        match self {
            Symbol::Level(level) => [level.byte(), 0],
            Symbol::Edge(Edge::R) => [b'r', 0],
            Symbol::Edge(Edge::F) => [b'f', 0],
            Symbol::Edge(Edge::P) => [b'p', 0],
            Symbol::Edge(Edge::N) => [b'n', 0],
            Symbol::Edge(Edge::Star) => [b'*', 0],
            Symbol::Edge(Edge::Pair(v, w)) => [v.byte(), w.byte()],
        }
    }

    pub fn from_bytes(bytes: [u8; 2]) -> Option<Symbol> {
        if bytes[1] != 0 {
            let pair = Edge::Pair(Level::from_byte(bytes[0])?, Level::from_byte(bytes[1])?);
            return Some(Symbol::Edge(pair));
        }
        let level = Level::from_byte(bytes[0]).map(Symbol::Level);
        level.or(Edge::letter(bytes[0]).map(Symbol::Edge))
    }

    pub fn is_edge(self) -> bool {
        matches!(self, Symbol::Edge(_))
    }

    /// Every symbol that may stand in a column.
    pub fn all() -> Vec<Symbol> {
        let levels = Level::ALL.into_iter().map(Symbol::Level);
        let letters = Edge::LETTERS.into_iter().map(Symbol::Edge);
        levels
            .chain(letters)
            .chain(pairs().into_iter().map(Symbol::Edge))
            .collect()
    }
}

/// Every pair that matches some change.
pub fn pairs() -> Vec<Edge> {
    let all = Level::ALL
        .iter()
        .flat_map(|&v| Level::ALL.iter().map(move |&w| Edge::Pair(v, w)));
    all.filter(|edge| !edge.matches_nothing()).collect()
}
