//! The elementary functions, written again from docs/FUNCTIONS.md: plain Rust, a step a line, with no
//! care for speed. The proved functions must give the same bits, all NaNs counted as one.
use crate::tables::{LOG_BENDS, LOG_SLOPES, LOG_TOPS, POWER_BENDS, POWER_SLOPES, POWER_STARTS};

/// A finite number above zero is digits * 2^(rung - 172), with digits from 2^23 to below 2^24.
fn parts(x: f32) -> (u32, u64) {
    let bits = x.to_bits();
    if bits >= 1 << 23 {
        (bits / (1 << 23) + 22, (bits % (1 << 23) + (1 << 23)) as u64)
    } else {
        let zeros = bits.leading_zeros();
        (31 - zeros, (bits as u64) << (zeros - 8))
    }
}

pub fn log2(x: f32) -> f32 {
    if x.is_nan() || x < 0.0 {
        return f32::NAN;
    }
    if x == 0.0 {
        return f32::NEG_INFINITY;
    }
    if x == f32::INFINITY {
        return f32::INFINITY;
    }
    let (rung, digits) = parts(x);
    let p = digits - (1 << 23);
    let cell = (p >> 17) as usize;
    let back = (1 << 17) - 1 - p % (1 << 17);
    let fall = back * (LOG_SLOPES[cell] + LOG_BENDS[cell] * back);
    let f = (LOG_TOPS[cell] - fall) >> 38;
    (f as f32) * f32::from_bits(0x3380_0000) + (rung as f32 - 149.0)
}

pub fn sqrt(x: f32) -> f32 {
    if x.is_nan() || x < 0.0 {
        return f32::NAN;
    }
    if x == 0.0 || x == f32::INFINITY {
        return x;
    }
    let (rung, digits) = parts(x);
    let n = if rung % 2 == 1 {
        digits << 23
    } else {
        digits << 24
    };
    let field = rung.div_ceil(2) + 51;
    f32::from_bits(field * (1 << 23) + nearest_root(n) as u32)
}

/// The r with (2r - 1)^2 < 4n < (2r + 1)^2, by halving.
fn nearest_root(n: u64) -> u64 {
    let (mut low, mut high) = (0u64, 1 << 25);
    while low < high {
        let middle = (low + high) / 2;
        if (2 * middle + 1).pow(2) < 4 * n {
            low = middle + 1;
        } else {
            high = middle;
        }
    }
    low
}

/// 2^62 * 2^(f / 2^32), nearly.
fn mantissa(f: u64) -> u64 {
    let cell = (f >> 26) as usize;
    let r = f % (1 << 26);
    POWER_STARTS[cell] + r * (POWER_SLOPES[cell] + ((POWER_BENDS[cell] * r) >> 26))
}

/// c is the base's logarithm to base 2.
fn power(c: f64, x: f32) -> f32 {
    if x.is_nan() {
        return f32::NAN;
    }
    if x >= 1024.0 {
        return f32::INFINITY;
    }
    if x <= -1024.0 {
        return 0.0;
    }
    let w = (x as f64 * c + 1572991.0).to_bits();
    let m = mantissa(w % (1 << 32));
    let field = (w >> 32) as i64 - 0x4138_0001;
    let kept = shifted(m, -field);
    let pattern = field.max(0) as u64 * (1 << 23) + ((kept + (1 << 38)) >> 39);
    f32::from_bits(pattern.min(0x7f80_0000) as u32)
}

fn shifted(m: u64, places: i64) -> u64 {
    if places <= 0 {
        m
    } else if places < 64 {
        m >> places
    } else {
        0
    }
}

pub fn exp2(x: f32) -> f32 {
    power(f64::from_bits(0x3ff0_0000_0000_0000), x)
}

pub fn exp(x: f32) -> f32 {
    power(f64::from_bits(0x3ff7_1547_652b_82fe), x)
}

pub fn pow8(x: f32) -> f32 {
    power(f64::from_bits(0x4008_0000_0000_0000), x)
}

pub fn pow10(x: f32) -> f32 {
    power(f64::from_bits(0x400a_934f_0979_a371), x)
}

pub fn db_to_gain(db: f32) -> f32 {
    pow10(db / 20.0)
}

fn high(a: u64, b: u64) -> u64 {
    ((a as u128 * b as u128) >> 64) as u64
}

pub fn exp64(x: f64) -> f64 {
    if x.is_nan() {
        return f64::NAN;
    }
    if x >= 1024.0 {
        return f64::INFINITY;
    }
    if x <= -1024.0 {
        return 0.0;
    }
    let p = x.abs().to_bits();
    let digits = (p % (1 << 52) + (1 << 52)) << 11;
    let product = digits as u128 * 13306513097844322492;
    let places = 64 + 1032 - (p >> 52);
    let t = if places < 128 {
        (((product >> places) + 1) >> 1) as u64
    } else {
        0
    };
    let w = if x.is_sign_negative() {
        (1 << 63) - t
    } else {
        (1 << 63) + t
    };
    let f = (w % (1 << 52)) << 12;
    let mut a = 11554055366;
    for coefficient in [
        121001960384,
        1891383853468,
        24365137105993,
        281371416557637,
        2841446494121437,
        24596074363141346,
        177423165967312138,
        1023870087593729323,
        4431396893595047327,
        12786308645202667078,
    ] {
        a = coefficient + high(f, a);
    }
    let m = (1 << 63) + high(f, a) / 2;
    let field = (w >> 52) as i64 - 1026;
    let kept = shifted(m, -field) as u128;
    let pattern = field.max(0) as u64 * (1 << 52) + ((kept + 1024) >> 11) as u64;
    f64::from_bits(pattern.min(0x7ff0_0000_0000_0000))
}
