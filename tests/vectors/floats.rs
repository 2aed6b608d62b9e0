//! Prints the stored cases of `floats_vectors`: each operation on its edges, with the answer of
//! Rust's own operation.
//!
//!     rustc -O tests/vectors/floats.rs -o /tmp/floats && /tmp/floats > crates/floats_vectors/stdin

#[path = "shared/line.rs"]
mod line;
use line::{bits32, bits64};

/// Rust leaves open which of two zeros `max` and `min` give: the first, as the port has it.
fn first_zero32(x: f32, y: f32, other: f32) -> f32 {
    if x == 0.0 && y == 0.0 {
        x
    } else {
        other
    }
}

fn first_zero64(x: f64, y: f64, other: f64) -> f64 {
    if x == 0.0 && y == 0.0 {
        x
    } else {
        other
    }
}

fn with_neighbours32(x: f32) -> [f32; 3] {
    let b = x.to_bits();
    [f32::from_bits(b - 1), x, f32::from_bits(b + 1)]
}

fn with_neighbours64(x: f64) -> [f64; 3] {
    let b = x.to_bits();
    [f64::from_bits(b - 1), x, f64::from_bits(b + 1)]
}

fn both_signs32(sizes: &[f32]) -> Vec<f32> {
    sizes.iter().flat_map(|&x| [x, -x]).collect()
}

fn both_signs64(sizes: &[f64]) -> Vec<f64> {
    sizes.iter().flat_map(|&x| [x, -x]).collect()
}

fn edges32() -> Vec<f32> {
    let mut v = vec![
        0.0,
        1e-45,
        1.1754942e-38,
        f32::MIN_POSITIVE,
        0.5,
        1.5,
        2.5,
        f32::MAX,
        f32::INFINITY,
    ];
    for x in [1.0, 8_388_608.0, 16_777_216.0] {
        v.extend(with_neighbours32(x));
    }
    let mut v = both_signs32(&v);
    v.push(f32::NAN);
    v
}

fn edges64() -> Vec<f64> {
    let mut v = vec![
        0.0,
        5e-324,
        2.225073858507201e-308,
        f64::MIN_POSITIVE,
        0.5,
        2.5,
        f64::MAX,
        f64::INFINITY,
    ];
    for x in [1.0, 4_503_599_627_370_496.0, 9_007_199_254_740_992.0] {
        v.extend(with_neighbours64(x));
    }
    let mut v = both_signs64(&v);
    v.push(f64::NAN);
    v
}

/// The ends of the unsigned types, and what lies beside them.
fn range_ends32() -> Vec<f32> {
    let mut v = vec![
        -0.0,
        -0.99999994,
        -1.0,
        -1e30,
        f32::NAN,
        f32::INFINITY,
        f32::NEG_INFINITY,
        0.99999994,
    ];
    for x in [
        16_777_216.0,
        4_294_967_296.0,
        9_223_372_036_854_775_808.0,
        18_446_744_073_709_551_616.0,
    ] {
        v.extend(with_neighbours32(x));
    }
    v
}

fn range_ends64() -> Vec<f64> {
    let mut v = vec![
        -0.0,
        -0.9999999999999999,
        -1.0,
        -1e300,
        f64::NAN,
        f64::INFINITY,
        f64::NEG_INFINITY,
    ];
    for x in [
        4_294_967_296.0,
        9_007_199_254_740_992.0,
        9_223_372_036_854_775_808.0,
        18_446_744_073_709_551_616.0,
    ] {
        v.extend(with_neighbours64(x));
    }
    v
}

/// Midpoints of neighbouring f32 values, and what lies beside them: normal ones with an even and an
/// odd lower neighbour, subnormal ones, the half of the smallest value, and the overflow.
fn narrowing_ties() -> Vec<f64> {
    let mut v = Vec::new();
    for low in [
        1.0f32,
        1.0000001,
        16_777_214.0,
        1e-40,
        1.1754942e-38,
        3e-45,
        f32::from_bits(0x7f7f_fffe),
    ] {
        let high = f32::from_bits(low.to_bits() + 1);
        v.extend(with_neighbours64((low as f64 + high as f64) / 2.0));
    }
    let past_the_largest =
        (f32::MAX as f64 + 340_282_366_920_938_463_463_374_607_431_768_211_456.0) / 2.0;
    v.extend(with_neighbours64(past_the_largest));
    v.extend(with_neighbours64(0.5 * 1.401298464324817e-45));
    let mut v = both_signs64(&v);
    v.extend([
        0.0,
        -0.0,
        f64::MAX,
        f64::MIN_POSITIVE,
        f64::INFINITY,
        f64::NEG_INFINITY,
        f64::NAN,
    ]);
    v
}

/// Whole numbers halfway between two f32 values, and what lies beside them.
fn whole_ties() -> Vec<u64> {
    let mut v = vec![
        0,
        1,
        (1 << 24) - 1,
        1 << 24,
        (1 << 24) + 1,
        (1 << 24) + 3,
        u64::MAX,
    ];
    for place in [32, 40, 53, 63] {
        for lower in [1u64 << place, (1u64 << place) + (1 << (place - 23))] {
            let tie = lower + (1 << (place - 24));
            v.extend([tie - 1, tie, tie + 1]);
        }
    }
    v.extend([
        (1u64 << 63) - 1,
        1 << 63,
        u64::MAX - (1 << 39),
        u64::MAX - (1 << 39) + 1,
    ]);
    v
}

fn pairs32() -> Vec<(f32, f32)> {
    let n = f32::NAN;
    let i = f32::INFINITY;
    let mut v = vec![
        (0.0, -0.0),
        (-0.0, 0.0),
        (n, 1.0),
        (1.0, n),
        (n, n),
        (i, n),
        (i, -i),
        (-i, 0.0),
        (1.0, 2.0),
        (2.0, 1.0),
        (-1.0, 1.0),
        (-1.0, -2.0),
        (3.0, 3.0),
        (1e-45, 0.0),
        (-1e-45, -0.0),
        (i, 1.0),
    ];
    v.push((f32::MAX, i));
    v
}

fn pairs64() -> Vec<(f64, f64)> {
    pairs32()
        .iter()
        .map(|&(x, y)| (x as f64, y as f64))
        .collect()
}

fn remainders32() -> Vec<(f32, f32)> {
    let i = f32::INFINITY;
    let n = f32::NAN;
    let mut v = Vec::new();
    for x in [
        0.0,
        -0.0,
        0.25,
        -0.25,
        0.99999994,
        1.0,
        -1.0,
        1.5,
        2.0,
        5.75,
        -5.75,
        1e-45,
        -1e-45,
        -9.313226e-10,
        f32::MAX,
        f32::MIN,
    ] {
        v.push((x, 1.0));
    }
    v.extend([
        (5.5, 2.0),
        (-5.5, 2.0),
        (5.5, -2.0),
        (-5.5, -2.0),
        (1.0, i),
        (-1.0, i),
        (-1.0, -i),
        (i, 1.0),
        (n, 1.0),
        (1.0, n),
        (1.0, 0.0),
        (1.0, -0.0),
        (1e30, 3e-45),
        (-1e-30, 7.0),
    ]);
    // The way by the bits: subnormal operands and remainders, and quotients of many digits.
    let least = f32::from_bits(1);
    let subnormal = f32::from_bits(0x007f_ffff);
    for (x, m) in [
        (f32::MAX, least),
        (f32::MAX, subnormal),
        (f32::MAX, f32::MIN_POSITIVE),
        (f32::MAX, 3.0),
        (f32::MAX, f32::from_bits(0x7f7f_fffe)),
        (subnormal, f32::from_bits(3)),
        (f32::MIN_POSITIVE, subnormal),
        (f32::from_bits(0x0100_0001), f32::from_bits(0x0080_0001)),
        (1.0, f32::from_bits(0x3f7f_ffff)),
        (1e10, 0.1),
    ] {
        v.extend([(x, m), (-x, m), (x, -m)]);
    }
    v
}

fn remainders64() -> Vec<(f64, f64)> {
    let mut v: Vec<(f64, f64)> = remainders32()
        .iter()
        .map(|&(x, y)| (x as f64, y as f64))
        .collect();
    v.extend([
        (-8.673617379884035e-19, 1e9),
        (1e18, 1e9),
        (-1e18, 1e9),
        (999_999_999.5, 1e9),
        (f64::MAX, 1e9),
        (5e-324, 1e9),
    ]);
    let least = f64::from_bits(1);
    let subnormal = f64::from_bits(0x000f_ffff_ffff_ffff);
    for (x, m) in [
        (f64::MAX, least),
        (f64::MAX, subnormal),
        (f64::MAX, f64::MIN_POSITIVE),
        (f64::MAX, 3.0),
        (f64::MAX, f64::from_bits(0x7fef_ffff_ffff_fffe)),
        (subnormal, f64::from_bits(3)),
        (f64::MIN_POSITIVE, subnormal),
        (1.0, f64::from_bits(0x3fef_ffff_ffff_ffff)),
        (1e300, 1e9),
        (1e22, 0.1),
        (2.0, 1.0),
        (1.9999999999999998, 1.0),
    ] {
        v.extend([(x, m), (-x, m), (x, -m)]);
    }
    v
}

fn clamps() -> Vec<(f32, f32, f32)> {
    let mut v = Vec::new();
    for x in [
        f32::NAN,
        -0.0,
        0.0,
        -1.0,
        0.5,
        1.0,
        1.0000001,
        2.0,
        f32::INFINITY,
        f32::NEG_INFINITY,
        -1e-45,
    ] {
        v.push((x, 0.0, 1.0));
    }
    v.extend([
        (0.001, 0.01, 32.0),
        (40.0, 0.01, 32.0),
        (1.0, 0.01, 32.0),
        (5.0, 4.0, 4.0),
        (-0.0, -1.0, 0.0),
    ]);
    v
}

struct List {
    next: u8,
}

impl List {
    fn add(&mut self, name: &str, cases: Vec<([u64; 3], u64)>) {
        for (o, answer) in cases {
            line::print(self.next, name, o, answer);
        }
        self.next += 1;
    }
    fn f32s(&mut self, name: &str, xs: Vec<f32>, f: impl Fn(f32) -> u64) {
        self.add(
            name,
            xs.into_iter().map(|x| ([bits32(x), 0, 0], f(x))).collect(),
        );
    }
    fn f64s(&mut self, name: &str, xs: Vec<f64>, f: impl Fn(f64) -> u64) {
        self.add(
            name,
            xs.into_iter().map(|x| ([bits64(x), 0, 0], f(x))).collect(),
        );
    }
    fn pairs32(&mut self, name: &str, xs: Vec<(f32, f32)>, f: impl Fn(f32, f32) -> f32) {
        self.add(
            name,
            xs.into_iter()
                .map(|(x, y)| ([bits32(x), bits32(y), 0], bits32(f(x, y))))
                .collect(),
        );
    }
    fn pairs64(&mut self, name: &str, xs: Vec<(f64, f64)>, f: impl Fn(f64, f64) -> f64) {
        self.add(
            name,
            xs.into_iter()
                .map(|(x, y)| ([bits64(x), bits64(y), 0], bits64(f(x, y))))
                .collect(),
        );
    }
}

fn main() {
    let mut l = List { next: 0 };
    l.f32s("floor32", edges32(), |x| bits32(x.floor()));
    l.f64s("floor64", edges64(), |x| bits64(x.floor()));
    l.f32s("ceil32", edges32(), |x| bits32(x.ceil()));
    l.f64s("ceil64", edges64(), |x| bits64(x.ceil()));
    l.pairs32("max32", pairs32(), |x, y| first_zero32(x, y, x.max(y)));
    l.pairs64("max64", pairs64(), |x, y| first_zero64(x, y, x.max(y)));
    l.pairs32("min32", pairs32(), |x, y| first_zero32(x, y, x.min(y)));
    let held = clamps()
        .into_iter()
        .map(|(x, a, b)| ([bits32(x), bits32(a), bits32(b)], bits32(x.clamp(a, b))));
    l.add("clamp32", held.collect());
    l.f32s(
        "abs32",
        vec![0.0, -0.0, -1.5, 1e-45, -1e-45, f32::NEG_INFINITY, f32::NAN],
        |x| bits32(x.abs()),
    );
    l.f32s("is_finite32", edges32(), |x| x.is_finite() as u64);
    l.f64s("is_finite64", edges64(), |x| x.is_finite() as u64);
    l.f32s("f32_to_u32", range_ends32(), |x| x as u32 as u64);
    l.f32s("f32_to_u64", range_ends32(), |x| x as u64);
    l.f32s("f32_to_usize", range_ends32(), |x| x as usize as u64);
    l.f64s("f64_to_u32", range_ends64(), |x| x as u32 as u64);
    l.f64s("f64_to_u64", range_ends64(), |x| x as u64);
    l.f64s("f64_to_usize", range_ends64(), |x| x as usize as u64);
    l.f32s("f32_to_f64", edges32(), |x| bits64(x as f64));
    l.f64s("f64_to_f32", narrowing_ties(), |x| bits32(x as f32));
    l.add(
        "u64_to_f32",
        whole_ties()
            .into_iter()
            .map(|n| ([n, 0, 0], bits32(n as f32)))
            .collect(),
    );
    let patterns = [
        0u32,
        1,
        0x7f7f_ffff,
        0x7f80_0000,
        0x7f80_0001,
        0x7fc0_0000,
        0x7fff_ffff,
        0x8000_0000,
        0xff80_0000,
        0xff80_0001,
        0xffc0_0000,
        0xffff_ffff,
    ];
    l.add(
        "of_bits32",
        patterns
            .iter()
            .map(|&b| ([b as u64, 0, 0], bits32(f32::from_bits(b))))
            .collect(),
    );
    let patterns = [
        0u64,
        1,
        0x7fef_ffff_ffff_ffff,
        0x7ff0_0000_0000_0000,
        0x7ff0_0000_0000_0001,
        0x7ff8_0000_0000_0000,
        0x8000_0000_0000_0000,
        0xfff0_0000_0000_0000,
        0xfff0_0000_0000_0001,
        u64::MAX,
    ];
    l.add(
        "of_bits64",
        patterns
            .iter()
            .map(|&b| ([b, 0, 0], bits64(f64::from_bits(b))))
            .collect(),
    );
    l.pairs32("rem32", remainders32(), |x, y| x % y);
    l.pairs64("rem64", remainders64(), |x, y| x % y);
    l.pairs32("rem_euclid32", remainders32(), |x, y| x.rem_euclid(y));
    l.pairs64("rem_euclid64", remainders64(), |x, y| x.rem_euclid(y));
    let words = [
        0u64,
        1,
        3,
        0xffff_ffff,
        1 << 32,
        0x9e37_79b9_7f4a_7c15,
        0xbf58_476d_1ce4_e5b9,
        u64::MAX,
    ];
    let products = words
        .iter()
        .flat_map(|&a| words.iter().map(move |&b| ([a, b, 0], a.wrapping_mul(b))));
    l.add("wrapping_mul", products.collect());
    let turns = [1u64, 0x8000_0000_0000_0001, 0x7765_6674_7061_7274, u64::MAX];
    let turned = turns.iter().flat_map(|&x| {
        [0u32, 1, 18, 19, 32, 63, 64, 83, u32::MAX].map(|n| ([x, n as u64, 0], x.rotate_left(n)))
    });
    l.add("rotate_left", turned.collect());
}
