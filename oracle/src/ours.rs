//! What the substituted original calls in place of std: our elementary functions, and the choices
//! that 01 settles where the Rust leaves them open.
#[cfg(not(linked))]
use crate::standin as functions;

#[cfg(linked)]
use crate::linked as functions;

pub use functions::{exp, exp2, exp64, log2, pow10, pow8, sqrt};

/// Whether these are the port's; else the comparison leaves them out and says so.
pub const LINKED: bool = cfg!(linked);

pub trait Functions: Sized {
    fn our_exp(self) -> Self;
}

impl Functions for f64 {
    fn our_exp(self) -> f64 {
        exp64(self)
    }
}

impl Functions for f32 {
    fn our_exp(self) -> f32 {
        exp(self)
    }
}

pub trait Singles {
    fn our_log2(self) -> f32;
    fn our_exp2(self) -> f32;
    fn our_sqrt(self) -> f32;
    fn our_powi(self, n: i32) -> f32;
}

impl Singles for f32 {
    fn our_log2(self) -> f32 {
        log2(self)
    }
    fn our_exp2(self) -> f32 {
        exp2(self)
    }
    fn our_sqrt(self) -> f32 {
        sqrt(self)
    }
    /// 01: `powi(3)` is x * x * x, left to right, `powi(2)` x * x, `powi(1)` x.
    fn our_powi(self, n: i32) -> f32 {
        match n {
            1 => self,
            2 => self * self,
            3 => self * self * self,
            _ => panic!("01 names powi(1), powi(2) and powi(3) alone"),
        }
    }
}

pub trait Choose {
    fn our_max(self, other: Self) -> Self;
    fn our_min(self, other: Self) -> Self;
}

macro_rules! floats_choose {
    ($($float:ty)*) => {$(
        impl Choose for $float {
            /// The larger; the other where one is NaN; the first of two zeros.
            fn our_max(self, other: $float) -> $float {
                if self.is_nan() || self < other { other } else { self }
            }
            fn our_min(self, other: $float) -> $float {
                if self.is_nan() || self > other { other } else { self }
            }
        }
    )*};
}

floats_choose!(f32 f64);

macro_rules! words_choose {
    ($($word:ty)*) => {$(
        impl Choose for $word {
            fn our_max(self, other: $word) -> $word {
                Ord::max(self, other)
            }
            fn our_min(self, other: $word) -> $word {
                Ord::min(self, other)
            }
        }
    )*};
}

words_choose!(u32 u64 usize);
