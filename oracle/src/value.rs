//! One value of the state, printed and counted by its bits, with one pattern for all NaNs.
use std::fmt;

#[derive(Clone, Copy, PartialEq)]
pub enum Value {
    Flag(bool),
    Number(u64),
    Maybe(Option<u64>),
    Single(f32),
    Double(f64),
}

pub fn bits32(x: f32) -> u32 {
    if x.is_nan() {
        0x7fc0_0000
    } else {
        x.to_bits()
    }
}

pub fn bits64(x: f64) -> u64 {
    if x.is_nan() {
        0x7ff8_0000_0000_0000
    } else {
        x.to_bits()
    }
}

impl Value {
    /// A number that tells any two values of one field apart.
    pub fn code(self) -> u64 {
        match self {
            Value::Flag(b) => u64::from(b),
            Value::Number(n) => n,
            Value::Maybe(None) => u64::MAX,
            Value::Maybe(Some(n)) => n,
            Value::Single(x) => u64::from(bits32(x)),
            Value::Double(x) => bits64(x),
        }
    }
}

impl fmt::Display for Value {
    fn fmt(&self, f: &mut fmt::Formatter) -> fmt::Result {
        match self {
            Value::Flag(b) => write!(f, "{}", u8::from(*b)),
            Value::Number(n) => write!(f, "{n}"),
            Value::Maybe(None) => write!(f, "none"),
            Value::Maybe(Some(n)) => write!(f, "{n}"),
            Value::Single(x) => write!(f, "{:08x}", bits32(*x)),
            Value::Double(x) => write!(f, "{:016x}", bits64(*x)),
        }
    }
}
