//! The time of each elementary function, and of the remainder by 1 that wraps a phase, against Rust's
//! own, on the same arguments in one run: the least of many passes over 8,193 arguments.
use raknaduv_bench::{ours, wrapped};
use std::hint::black_box;
use std::time::Instant;

const PASSES: usize = 400;
const ARGUMENTS: usize = 8193;

/// Nanoseconds a call.
fn least<T: Copy + Default>(arguments: &[T], f: impl Fn(T) -> T) -> f64 {
    let mut answers = vec![T::default(); arguments.len()];
    let mut best = f64::MAX;
    for _ in 0..PASSES {
        let start = Instant::now();
        for (answer, x) in answers.iter_mut().zip(arguments) {
            *answer = f(*x);
        }
        black_box(&answers);
        best = best.min(start.elapsed().as_nanos() as f64 / arguments.len() as f64);
    }
    best
}

fn line<T: Copy + Default>(
    name: &str,
    arguments: &[T],
    ours: impl Fn(T) -> T,
    rust: impl Fn(T) -> T,
) {
    let (a, b) = (least(arguments, ours), least(arguments, rust));
    println!("{name:22} {a:6.2} ns, Rust {b:6.2} ns, ratio {:5.2}", a / b);
}

fn main() {
    let mut state = 1u64;
    let mut unit = || {
        state = state
            .wrapping_mul(6364136223846793005)
            .wrapping_add(1442695040888963407);
        ((state >> 40) as f32) / 16777216.0
    };
    let mut spread = |from: f32, to: f32| -> Vec<f32> {
        (0..ARGUMENTS)
            .map(|_| from + (to - from) * unit())
            .collect()
    };
    let hertz = spread(20.0, 20_020.0);
    let levels = spread(-3.0, 0.0);
    let octaves = spread(4.0, 15.0);
    let wide: Vec<f64> = spread(-10.0, 0.0).into_iter().map(f64::from).collect();
    line("log2, 20 to 20,020", &hertz, ours::log2, f32::log2);
    line("exp2, 4 to 15", &octaves, ours::exp2, f32::exp2);
    line("exp, -3 to 0", &levels, ours::exp, f32::exp);
    line("pow8, -3 to 0", &levels, ours::pow8, |x| {
        black_box(8f32).powf(x)
    });
    line("pow10, -3 to 0", &levels, ours::pow10, |x| {
        black_box(10f32).powf(x)
    });
    line("sqrt, 20 to 20,020", &hertz, ours::sqrt, f32::sqrt);
    line("exp64, -10 to 0", &wide, ours::exp64, f64::exp);
    for from in [-1.0, 0.0, 1.0] {
        let phases: Vec<f64> = spread(from, from + 1.0)
            .into_iter()
            .map(f64::from)
            .collect();
        let name = format!("wrapped, {from} to {}", from + 1.0);
        line(&name, &phases, wrapped, |x| x.rem_euclid(black_box(1.0)));
    }
}
