//! The three values, ordered 0, 1, x.

#[derive(Clone, Copy, PartialEq, Eq, PartialOrd, Ord, Debug)]
pub enum Value {
    Zero,
    One,
    X,
}

impl Value {
    pub const ALL: [Value; 3] = [Value::Zero, Value::One, Value::X];

    pub fn rank(self) -> usize {
        match self {
            Value::Zero => 0,
            Value::One => 1,
            Value::X => 2,
        }
    }

    pub fn byte(self) -> u8 {
        match self {
            Value::Zero => b'0',
            Value::One => b'1',
            Value::X => b'x',
        }
    }

    pub fn from_byte(byte: u8) -> Option<Value> {
        Value::ALL.into_iter().find(|value| value.byte() == byte)
    }
}

/// Reads a lent vector, where only the three bytes `0`, `1`, `x` count.
pub fn vector(bytes: &[u8]) -> Option<Vec<Value>> {
    bytes.iter().map(|&byte| Value::from_byte(byte)).collect()
}

pub fn bytes(vector: &[Value]) -> Vec<u8> {
    vector.iter().map(|value| value.byte()).collect()
}
