//! What 01 says of the elementary functions, asked of the linked ones: how far they may be from
//! the true values, and where they are exact.
use crate::arguments::{Arguments, ARGUMENTS};
use crate::bits::Bits;
use crate::ours;
use crate::value::bits32;

struct Function {
    name: &'static str,
    ours: fn(f32) -> f32,
    /// The true value, to within what f64 can show.
    truth: fn(f64) -> f64,
}

const FUNCTIONS: [Function; 5] = [
    Function {
        name: "log2",
        ours: ours::log2,
        truth: f64::log2,
    },
    Function {
        name: "exp2",
        ours: ours::exp2,
        truth: f64::exp2,
    },
    Function {
        name: "exp",
        ours: ours::exp,
        truth: f64::exp,
    },
    Function {
        name: "pow8",
        ours: ours::pow8,
        truth: |x| 8.0_f64.powf(x),
    },
    Function {
        name: "pow10",
        ours: ours::pow10,
        truth: |x| 10.0_f64.powf(x),
    },
];

const FREE: f64 = 1.0 / (1 << 22) as f64;

/// The distance from one f32 to the next at the size of `x`.
fn spacing(x: f64) -> f64 {
    let exponent = (x.abs().to_bits() >> 52) as i32 - 1023;
    2.0_f64.powi(exponent.clamp(-126, 127) - 23)
}

/// 01: two spacings of the result or 2^-22, the larger. An infinity counts as 2^128.
fn near(got: f32, truth: f64) -> bool {
    let whole = |x: f64| x.clamp(-(2.0_f64.powi(128)), 2.0_f64.powi(128));
    if truth.is_nan() || got.is_nan() {
        return truth.is_nan() && got.is_nan();
    }
    let (got, truth) = (whole(got.into()), whole(truth));
    (got - truth).abs() <= (2.0 * spacing(truth)).max(FREE)
}

/// A claim, how many cases it has, and those at which it fails.
pub struct Check {
    pub name: String,
    pub cases: u64,
    pub failed: Vec<String>,
}

pub fn checks(base: u64) -> Vec<Check> {
    let mut all: Vec<Check> = FUNCTIONS.iter().map(|f| function_near(base, f)).collect();
    all.push(exp64_near(base));
    all.push(sqrt_equal(base));
    all.push(exact());
    all
}

fn singles(base: u64, name: &str) -> impl Iterator<Item = f32> {
    let arguments = Arguments::new(base, name, vec![f32::edges()]);
    arguments
        .take(ARGUMENTS as usize)
        .map(|words| f32::of(words[0]))
}

fn function_near(base: u64, f: &Function) -> Check {
    let fails = |x: f32| {
        let got = (f.ours)(x);
        (!near(got, (f.truth)(x.into())))
            .then(|| format!("{:08x} gives {:08x}", bits32(x), bits32(got)))
    };
    Check {
        name: format!("{} near the true values", f.name),
        cases: ARGUMENTS,
        failed: singles(base, f.name).filter_map(fails).collect(),
    }
}

fn sqrt_equal(base: u64) -> Check {
    let fails = |x: f32| {
        let got = bits32(ours::sqrt(x));
        (got != bits32(x.sqrt())).then(|| format!("{:08x} gives {got:08x}", bits32(x)))
    };
    Check {
        name: "sqrt equal to Rust's".into(),
        cases: ARGUMENTS,
        failed: singles(base, "sqrt").filter_map(fails).collect(),
    }
}

fn exp64_near(base: u64) -> Check {
    let mut failed = Vec::new();
    let mut cases = 0;
    for words in Arguments::new(base, "exp64", vec![f64::edges()]).take(ARGUMENTS as usize) {
        // Whole random bits are mostly far out; what the engine asks lies in -1 to 0.
        for x in [
            f64::of(words[0]),
            -((words[0] >> 11) as f64 / (1_u64 << 53) as f64),
        ] {
            cases += 1;
            let (got, truth) = (ours::exp64(x), x.exp());
            let spacing = f64::from_bits(truth.to_bits() & !0xf_ffff_ffff_ffff) * f64::EPSILON;
            let fine = got == truth
                || (got.is_nan() && truth.is_nan())
                || (got - truth).abs() <= (2.0 * spacing).max(FREE);
            if !fine {
                failed.push(format!("{:016x} gives {:016x}", x.to_bits(), got.to_bits()));
            }
        }
    }
    Check {
        name: "exp64 near the true values".into(),
        cases,
        failed,
    }
}

/// Exact places, zeros, signs, and order.
fn exact() -> Check {
    let mut failed = Vec::new();
    let mut cases = 0;
    let mut claim = |what: &str, x: f32, holds: bool| {
        cases += 1;
        if !holds {
            failed.push(format!("{what} at {:08x}", bits32(x)));
        }
    };
    for e in -149..128_i32 {
        let power = 2.0_f64.powi(e) as f32;
        claim(
            "log2 of a power of two",
            power,
            ours::log2(power) == e as f32,
        );
        claim(
            "exp2 of a whole number",
            e as f32,
            ours::exp2(e as f32) == power,
        );
    }
    for zero in [0.0_f32, -0.0] {
        claim("log2 of zero", zero, ours::log2(zero) == f32::NEG_INFINITY);
        for f in [ours::exp2, ours::exp, ours::pow8, ours::pow10] {
            claim("zero to 1", zero, f(zero) == 1.0);
        }
        claim("zero to 1 in f64", zero, ours::exp64(zero.into()) == 1.0);
    }
    let mut below = f32::NEG_INFINITY;
    for x in (1..0x7f80_0001_u32).step_by(2_003).map(f32::from_bits) {
        claim("log2 falls", x, ours::log2(x) >= below);
        below = ours::log2(x);
        claim("log2 of a negative", -x, ours::log2(-x).is_nan());
        claim(
            "exp not in 0 to 1",
            -x,
            (0.0..=1.0).contains(&ours::exp(-x)),
        );
    }
    Check {
        name: "elementary functions as 01 states them".into(),
        cases,
        failed,
    }
}
