//! Prints the stored cases of `elementary_vectors`: each elementary function at its edges, exact
//! points and random arguments, with the answer of the plain implementation of docs/FUNCTIONS.md in
//! bench/src/reference.rs, which shares nothing with the proved code.
//!
//!     rustc -O tests/vectors/elementary.rs -o /tmp/elementary && /tmp/elementary > crates/elementary_vectors/stdin
#[path = "shared/line.rs"]
mod line;
#[path = "../../bench/src/reference.rs"]
mod reference;
#[path = "../../bench/src/tables.rs"]
mod tables;
use line::{bits32, bits64};

const RANDOM: usize = 200;

struct Random(u64);

impl Random {
    fn next(&mut self) -> u64 {
        self.0 = self
            .0
            .wrapping_mul(6364136223846793005)
            .wrapping_add(1442695040888963407);
        self.0 ^ self.0 >> 33
    }
    /// From `from` to `to`.
    fn between(&mut self, from: f64, to: f64) -> f64 {
        from + (to - from) * (self.next() >> 11) as f64 / 9007199254740992.0
    }
}

fn beside32(x: f32) -> [f32; 3] {
    [
        f32::from_bits(x.to_bits() - 1),
        x,
        f32::from_bits(x.to_bits() + 1),
    ]
}

/// Zeros, the ends of the subnormal, normal and finite numbers, infinities, NaN, and 1 with its neighbours.
fn edges32() -> Vec<f32> {
    let mut v = vec![f32::NAN];
    let mut sizes = vec![
        0.0,
        f32::from_bits(1),
        f32::from_bits(2),
        f32::MAX,
        f32::INFINITY,
        0.5,
        2.0,
    ];
    sizes.extend(beside32(f32::MIN_POSITIVE));
    sizes.extend(beside32(1.0));
    for x in sizes {
        v.extend([x, -x]);
    }
    v
}

/// Powers of two from 2^-149 to 2^127, every seventh.
fn powers_of_two() -> impl Iterator<Item = f32> {
    (0..277).step_by(7).map(|k: u32| {
        if k < 23 {
            f32::from_bits(1 << k)
        } else {
            f32::from_bits((k - 22) << 23)
        }
    })
}

fn logarithms(random: &mut Random) -> Vec<f32> {
    let mut v = edges32();
    v.extend(powers_of_two());
    // where one cell of the table ends and the next begins
    v.extend(
        (1..64)
            .step_by(5)
            .flat_map(|i| beside32(f32::from_bits(0x3f80_0000 + (i << 17)))),
    );
    v.extend([20.0, 22.0, 440.0, 4186.01, 20_000.0]);
    v.extend((0..RANDOM).map(|_| f32::from_bits(random.next() as u32 % 0x7f80_0000)));
    v
}

/// Around the places where a power of the base becomes subnormal, 0 and infinity, whole numbers and random ones.
fn exponents(random: &mut Random, log2: f64) -> Vec<f32> {
    let mut v = edges32();
    v.extend([1024.0, -1024.0, 1023.99994, -1023.99994]);
    for end in [-150.0, -149.0, -126.0, 127.0, 128.0] {
        v.extend(beside32((end / log2) as f32));
    }
    v.extend((-149..=127).step_by(12).map(|n| n as f32));
    v.extend([-3.0, -2.9999998, -0.3, -0.05, 0.05]);
    v.extend((0..RANDOM).map(|_| random.between(-155.0 / log2, 130.0 / log2) as f32));
    v
}

fn squares(random: &mut Random) -> Vec<f32> {
    let mut v = edges32();
    v.extend(powers_of_two());
    v.extend([
        0.01,
        0.125,
        2.25,
        8.0,
        32.0,
        16_777_215.0,
        1.0 / 256.0,
        36.0,
    ]);
    v.extend((0..RANDOM).map(|_| f32::from_bits(random.next() as u32 % 0x7f80_0000)));
    v
}

fn exponents64(random: &mut Random) -> Vec<f64> {
    let mut v = vec![f64::NAN];
    for x in [
        0.0,
        5e-324,
        2.3e-308,
        1e-17,
        1.2e-16,
        0.5,
        1.0,
        2.0,
        100.0,
        709.0,
        1024.0,
        1e300,
        f64::INFINITY,
    ] {
        v.extend([x, -x]);
    }
    v.extend([
        709.782712893384,
        709.7827128933841,
        -708.3964185322641,
        -708.4,
        -744.4400719213812,
        -745.1332191019411,
        -745.2,
    ]);
    v.extend([8000.0, 44_100.0, 48_000.0, 384_000.0].map(|rate: f64| -1.0 / (0.05 * rate)));
    v.extend((0..2 * RANDOM).map(|_| random.between(-750.0, 712.0)));
    v
}

fn levels(random: &mut Random) -> Vec<f32> {
    let mut v = edges32();
    v.extend([-60.0, -6.0, -3.0, -0.1, 6.0, 24.0, -20.0, 20.0]);
    v.extend((0..RANDOM).map(|_| random.between(-70.0, 30.0) as f32));
    v
}

fn main() {
    let random = &mut Random(2026);
    let lists: [(&str, fn(f32) -> f32, Vec<f32>); 7] = [
        ("log2", reference::log2, logarithms(random)),
        ("exp2", reference::exp2, exponents(random, 1.0)),
        (
            "exp",
            reference::exp,
            exponents(random, std::f64::consts::LOG2_E),
        ),
        ("pow8", reference::pow8, exponents(random, 3.0)),
        (
            "pow10",
            reference::pow10,
            exponents(random, std::f64::consts::LOG2_10),
        ),
        ("sqrt", reference::sqrt, squares(random)),
        ("db_to_gain", reference::db_to_gain, levels(random)),
    ];
    for (number, (name, f, arguments)) in lists.into_iter().enumerate() {
        for x in arguments {
            line::print(number as u8, name, [bits32(x), 0, 0], bits32(f(x)));
        }
    }
    for x in exponents64(random) {
        line::print(7, "exp64", [bits64(x), 0, 0], bits64(reference::exp64(x)));
    }
}
