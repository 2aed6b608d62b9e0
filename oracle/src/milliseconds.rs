//! 02, order 1: whole milliseconds by the exact value of the rate's float, in whole numbers.
use crate::whole::fraction;

/// The ms with ms * rate <= samples * 1000 < (ms + 1) * rate.
pub fn milliseconds(samples: u64, rate: f32) -> u128 {
    let (digits, places) = fraction(rate);
    ((u128::from(samples) * 1000) << places) / digits
}

/// The least count of samples with that many milliseconds or more.
pub fn first_sample(ms: u128, rate: f32) -> u64 {
    let (digits, places) = fraction(rate);
    (ms * digits).div_ceil(1000 << places) as u64
}
