//! Random numbers for the generators, by seed: SplitMix64, written from its public-domain
//! reference and not from the original, and its output function backwards.

pub struct Draws(u64);

const STEP: u64 = 0x9e37_79b9_7f4a_7c15;

pub fn mixed(mut z: u64) -> u64 {
    z = (z ^ (z >> 30)).wrapping_mul(0xbf58_476d_1ce4_e5b9);
    z = (z ^ (z >> 27)).wrapping_mul(0x94d0_49bb_1331_11eb);
    z ^ (z >> 31)
}

/// The number that `mixed` takes to `z`.
pub fn unmixed(mut z: u64) -> u64 {
    z ^= z >> 31 ^ z >> 62;
    z = z.wrapping_mul(inverse(0x94d0_49bb_1331_11eb));
    z ^= z >> 27 ^ z >> 54;
    z = z.wrapping_mul(inverse(0xbf58_476d_1ce4_e5b9));
    z ^ z >> 30 ^ z >> 60
}

/// The inverse of an odd number modulo 2^64, by Newton.
pub fn inverse(odd: u64) -> u64 {
    let mut x = odd;
    for _ in 0..6 {
        x = x.wrapping_mul(2_u64.wrapping_sub(odd.wrapping_mul(x)));
    }
    x
}

impl Draws {
    pub fn new(seed: u64, salt: &str) -> Self {
        let salted = salt
            .bytes()
            .fold(seed, |s, b| mixed(s.wrapping_add(STEP) ^ u64::from(b)));
        Draws(salted)
    }
    pub fn word(&mut self) -> u64 {
        self.0 = self.0.wrapping_add(STEP);
        mixed(self.0)
    }
    /// Below `n`.
    pub fn below(&mut self, n: u64) -> u64 {
        self.word() % n
    }
    /// From `low` to `high`.
    pub fn among(&mut self, low: u32, high: u32) -> u32 {
        low + self.below(u64::from(high - low) + 1) as u32
    }
    /// True once in `n`.
    pub fn once_in(&mut self, n: u64) -> bool {
        self.below(n) == 0
    }
    pub fn pick<T: Copy>(&mut self, from: &[T]) -> T {
        from[self.below(from.len() as u64) as usize]
    }
    /// A float from `low` to `high`.
    pub fn between(&mut self, low: f32, high: f32) -> f32 {
        low + (high - low) * (self.below(1 << 24) as f32 / 16_777_216.0)
    }
    pub fn flag(&mut self) -> bool {
        self.once_in(2)
    }
}
