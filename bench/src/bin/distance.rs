//! How far each elementary function is from the true value, over every f32 argument: the worst
//! distance in spacings of the result and as a part of the limit, the larger of two spacings and
//! 2^-22, with its argument. Also that the proved functions give the reference's bits, and never
//! fall. exp at f64: every f32 argument and a million random f64s.
use raknaduv_bench::precise;
use raknaduv_bench::{ours, reference, same32, same64, spacing32};
use std::thread;

/// What was seen of some arguments, in rising order.
#[derive(Clone, Copy)]
struct Seen {
    differ: u64,
    falls: u64,
    spacings: f64,
    part: f64,
    at: f64,
    first: f64,
    last: f64,
}

impl Seen {
    fn none() -> Self {
        Seen {
            differ: 0,
            falls: 0,
            spacings: 0.0,
            part: 0.0,
            at: 0.0,
            first: f64::NAN,
            last: f64::NEG_INFINITY,
        }
    }
    /// An argument, its answer, whether that is the reference's, and its distance in spacings and as a part of the limit.
    fn add(&mut self, x: f64, answer: f64, same: bool, spacings: f64, part: f64) {
        self.differ += !same as u64;
        if !answer.is_nan() {
            self.falls += (answer < self.last) as u64;
            self.last = answer;
            if self.first.is_nan() {
                self.first = answer;
            }
        }
        if part > self.part {
            self.part = part;
            self.at = x;
        }
        self.spacings = self.spacings.max(spacings);
    }
    /// What was seen of arguments that lie above these.
    fn then(self, above: Seen) -> Seen {
        let worst = if above.part > self.part { above } else { self };
        Seen {
            differ: self.differ + above.differ,
            falls: self.falls + above.falls + (above.first < self.last) as u64,
            spacings: self.spacings.max(above.spacings),
            part: worst.part,
            at: worst.at,
            first: self.first,
            last: above.last,
        }
    }
    fn say(&self, name: &str) {
        println!(
            "{name:6} differs {}, falls {}, at most {:.4} spacings and {:.4} of the limit, at {:e}",
            self.differ, self.falls, self.spacings, self.part, self.at
        );
    }
}

/// All f32s in rising order, the NaNs last.
fn argument(place: u64) -> f32 {
    let negative = 0x7f80_0001;
    let ordered = if place < negative {
        0xff80_0000 - place
    } else if place < 2 * negative {
        place - negative
    } else if place < 2 * negative + 0x7f_ffff {
        0x7f80_0001 + (place - 2 * negative)
    } else {
        0xff80_0001 + (place - 2 * negative - 0x7f_ffff)
    };
    f32::from_bits(ordered as u32)
}

fn in_two(look: impl Fn(f32, &mut Seen) + Copy + Send + Sync) -> Seen {
    let half = |from: u64, to: u64| {
        let mut seen = Seen::none();
        for place in from..to {
            look(argument(place), &mut seen);
        }
        seen
    };
    thread::scope(|scope| {
        let upper = scope.spawn(move || half(1 << 31, 1 << 32));
        let lower = half(0, 1 << 31);
        lower.then(upper.join().unwrap())
    })
}

fn sweep(name: &str, ours: fn(f32) -> f32, plain: fn(f32) -> f32, truth: fn(f64) -> f64) {
    let top = 2f64.powi(128);
    let seen = in_two(move |x, seen| {
        let answer = ours(x);
        let same = same32(answer, plain(x));
        let t = truth(x as f64);
        if t.is_nan() || t == f64::NEG_INFINITY {
            let right = if t.is_nan() {
                answer.is_nan()
            } else {
                answer == f32::NEG_INFINITY
            };
            seen.add(x as f64, answer as f64, same && right, 0.0, 0.0);
            return;
        }
        let t = t.min(top);
        let distance = ((answer as f64).min(top) - t).abs();
        let spacing = spacing32(t);
        seen.add(
            x as f64,
            answer as f64,
            same,
            distance / spacing,
            distance / (2.0 * spacing).max(2f64.powi(-22)),
        );
    });
    seen.say(name);
}

/// The distance of an answer from e^x in spacings of the result.
fn spacings64(x: f64, answer: f64) -> f64 {
    let (m, k) = precise::exp(x);
    let exponent = k + (m.0.to_bits() >> 52) as i32 - 1023;
    if exponent > 1023 {
        return if answer == f64::INFINITY {
            0.0
        } else {
            f64::INFINITY
        };
    }
    let scaled = times_power(answer, -k);
    ((scaled - m.0) - m.1).abs() / 2f64.powi(exponent.max(-1022) - 52 - k)
}

fn times_power(x: f64, n: i32) -> f64 {
    x * 2f64.powi(n / 2) * 2f64.powi(n - n / 2)
}

fn look64(x: f64, seen: &mut Seen) {
    let answer = ours::exp64(x);
    let same = same64(answer, reference::exp64(x));
    let spacings = if x.abs() < 745.5 {
        spacings64(x, answer)
    } else {
        0.0
    };
    seen.add(x, answer, same, spacings, spacings / 2.0);
}

fn random64(count: u64) {
    let mut state = 1u64;
    let mut seen = Seen::none();
    for _ in 0..count {
        state = state
            .wrapping_mul(6364136223846793005)
            .wrapping_add(1442695040888963407);
        seen.last = f64::NEG_INFINITY;
        look64(
            ((state >> 11) as f64 / 2f64.powi(53) - 0.5) * 1491.0,
            &mut seen,
        );
    }
    println!(
        "exp64, {count} random: differs {}, at most {:.4} spacings, at {:e}",
        seen.differ, seen.spacings, seen.at
    );
}

fn main() {
    sweep("log2", ours::log2, reference::log2, f64::log2);
    sweep("exp2", ours::exp2, reference::exp2, f64::exp2);
    sweep("exp", ours::exp, reference::exp, f64::exp);
    sweep("pow8", ours::pow8, reference::pow8, |x| (3.0 * x).exp2());
    sweep("pow10", ours::pow10, reference::pow10, |x| 10f64.powf(x));
    sweep("sqrt", ours::sqrt, |x| x.sqrt(), f64::sqrt);
    in_two(|x, seen| look64(x as f64, seen)).say("exp64");
    random64(1_000_000);
}
