//! Whole numbers of any size, as far as 02's table needs them: products, powers, order. And a float as a
//! fraction of two.
use std::cmp::Ordering;

/// A positive float below 2^24 is digits / 2^places.
pub fn fraction(x: f32) -> (u128, u32) {
    let (exponent, low) = (x.to_bits() >> 23, x.to_bits() & 0x7f_ffff);
    match exponent {
        0 => (low.into(), 149),
        _ => ((low | 1 << 23).into(), 150 - exponent),
    }
}

/// Words of 64 bits, the lowest first, the highest not 0.
#[derive(Clone, PartialEq, Eq)]
pub struct Whole(Vec<u64>);

impl Whole {
    pub fn of(n: u64) -> Self {
        Whole(if n == 0 { Vec::new() } else { vec![n] })
    }
    pub fn times(&self, other: &Whole) -> Whole {
        let mut words = vec![0; self.0.len() + other.0.len()];
        for (i, a) in self.0.iter().enumerate() {
            let mut carried = 0;
            for (j, b) in other.0.iter().enumerate() {
                let sum = u128::from(*a) * u128::from(*b) + u128::from(words[i + j]) + carried;
                words[i + j] = sum as u64;
                carried = sum >> 64;
            }
            words[i + other.0.len()] = carried as u64;
        }
        while words.last() == Some(&0) {
            words.pop();
        }
        Whole(words)
    }
    /// By squares.
    pub fn power(&self, n: u32) -> Whole {
        match n {
            0 => Whole::of(1),
            _ => {
                let half = self.power(n / 2);
                let even = half.times(&half);
                match n % 2 {
                    0 => even,
                    _ => even.times(self),
                }
            }
        }
    }
}

impl Ord for Whole {
    fn cmp(&self, other: &Whole) -> Ordering {
        let by_length = self.0.len().cmp(&other.0.len());
        by_length.then_with(|| self.0.iter().rev().cmp(other.0.iter().rev()))
    }
}

impl PartialOrd for Whole {
    fn partial_cmp(&self, other: &Whole) -> Option<Ordering> {
        Some(self.cmp(other))
    }
}
