//! Numbers of every type as words, for probes: a float by its bits, with one pattern for NaNs.
use crate::value::{bits32, bits64};

pub trait Bits: Copy {
    /// The edges come first among a probe's arguments.
    fn edges() -> Vec<u64>;
    fn of(word: u64) -> Self;
    fn word(self) -> u64;
}

/// Powers of two and their neighbours.
fn whole_edges(digits: u32) -> Vec<u64> {
    let mut edges = vec![0];
    for power in 0..digits {
        let n = 1_u64 << power;
        edges.extend([n - 1, n, n + 1]);
    }
    edges.push(u64::MAX >> (64 - digits));
    edges
}

impl Bits for u64 {
    fn edges() -> Vec<u64> {
        whole_edges(64)
    }
    fn of(word: u64) -> u64 {
        word
    }
    fn word(self) -> u64 {
        self
    }
}

impl Bits for usize {
    fn edges() -> Vec<u64> {
        whole_edges(64)
    }
    fn of(word: u64) -> usize {
        word as usize
    }
    fn word(self) -> u64 {
        self as u64
    }
}

impl Bits for u32 {
    fn edges() -> Vec<u64> {
        whole_edges(32)
    }
    fn of(word: u64) -> u32 {
        word as u32
    }
    fn word(self) -> u64 {
        self.into()
    }
}

impl Bits for u16 {
    fn edges() -> Vec<u64> {
        whole_edges(16)
    }
    fn of(word: u64) -> u16 {
        word as u16
    }
    fn word(self) -> u64 {
        self.into()
    }
}

impl Bits for u8 {
    fn edges() -> Vec<u64> {
        whole_edges(8)
    }
    fn of(word: u64) -> u8 {
        word as u8
    }
    fn word(self) -> u64 {
        self.into()
    }
}

impl Bits for bool {
    fn edges() -> Vec<u64> {
        vec![0, 1]
    }
    fn of(word: u64) -> bool {
        word & 1 == 1
    }
    fn word(self) -> u64 {
        self.into()
    }
}

/// Halves and quarters, then each power of two, with neighbours and both signs, then the odd ones.
fn float_edges(
    bits: impl Fn(f64) -> u64,
    digits: u32,
    exponents: std::ops::Range<i32>,
) -> Vec<u64> {
    let mut edges = Vec::new();
    let small = (0..8).map(|n| f64::from(n) * 0.25);
    let powers = exponents.map(|e| 2.0_f64.powi(e));
    for x in small.chain(powers).chain([f64::MAX, f64::INFINITY]) {
        let b = bits(x);
        edges.extend([b, b + 1, b.saturating_sub(1)]);
    }
    let minus = 1 << (digits - 1);
    let negative: Vec<u64> = edges.iter().map(|b| b | minus).collect();
    edges.extend(negative);
    edges
}

impl Bits for f32 {
    fn edges() -> Vec<u64> {
        float_edges(|x| (x as f32).to_bits().into(), 32, -149..128)
    }
    fn of(word: u64) -> f32 {
        f32::from_bits(word as u32)
    }
    fn word(self) -> u64 {
        bits32(self).into()
    }
}

impl Bits for f64 {
    fn edges() -> Vec<u64> {
        float_edges(f64::to_bits, 64, -1074..1024)
    }
    fn of(word: u64) -> f64 {
        f64::from_bits(word)
    }
    fn word(self) -> u64 {
        bits64(self)
    }
}
