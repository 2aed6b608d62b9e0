//! e^x to about 95 bits, as the sum of two f64s times a power of two: the reference for exp at f64.

/// ln 2 in three parts; the first has 33 digits, so its product with a whole number below 2^20 is exact.
const LN_2: [u64; 3] = [
    0x3fe6_2e42_fef0_0000,
    0x3dd4_73de_6af2_78ed,
    0xba59_ff03_4254_2fc3,
];

#[derive(Clone, Copy)]
pub struct Pair(pub f64, pub f64);

fn sum(a: f64, b: f64) -> Pair {
    let s = a + b;
    let t = s - a;
    Pair(s, (a - (s - t)) + (b - t))
}

fn product(a: f64, b: f64) -> Pair {
    let p = a * b;
    Pair(p, a.mul_add(b, -p))
}

fn plus(a: Pair, b: Pair) -> Pair {
    let high = sum(a.0, b.0);
    let low = sum(a.1, b.1);
    let middle = sum(high.0, high.1 + low.0);
    sum(middle.0, middle.1 + low.1)
}

fn times(a: Pair, b: Pair) -> Pair {
    let p = product(a.0, b.0);
    sum(p.0, p.1 + (a.0 * b.1 + a.1 * b.0))
}

/// The pair m and the whole number k with e^x = m * 2^k, m near 1.
pub fn exp(x: f64) -> (Pair, i32) {
    let [first, second, third] = LN_2.map(f64::from_bits);
    let k = (x * std::f64::consts::LOG2_E).round();
    let mut r = sum(x, -(k * first));
    r = plus(r, product(-k, second));
    r = plus(r, Pair(-k * third, 0.0));
    // r / 256, a polynomial of degree 11, then eight squares
    let small = Pair(r.0 / 256.0, r.1 / 256.0);
    let mut m = Pair(1.0, 0.0);
    for n in (1..=11).rev() {
        let q = divided(times(small, m), n as f64);
        m = plus(Pair(1.0, 0.0), q);
    }
    for _ in 0..8 {
        m = times(m, m);
    }
    (m, k as i32)
}

fn divided(a: Pair, n: f64) -> Pair {
    let q = a.0 / n;
    let p = product(q, n);
    let rest = ((a.0 - p.0) - p.1 + a.1) / n;
    sum(q, rest)
}
