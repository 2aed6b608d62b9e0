//! Starts near 2^40 samples, where refusal 4 lies: an advance has 32 bits, so a script that begins
//! at 0 comes there only by stepping through all the samples before.
use crate::draws::Draws;
use crate::engine::Particles;
use crate::field::{read, Field, Settings};
use crate::gen::script::Script;
use crate::gen::values::{rate, settings};
use crate::original::Engine;
use crate::runner::{advance, run, SAMPLE_LIMIT};

/// How many starts and skips are held against calls that 01 allows.
pub const CHECKS: u64 = 12;

/// So many samples that one of the script's advances ends exactly on the limit, or one past it, or
/// goes over it somewhere.
pub fn start(seed: u64, script: &[u8]) -> u64 {
    // Scripts of one seed differ in length, mostly, and so in what is chosen.
    let mut d = Draws::new(seed ^ (script.len() as u64) << 32, "late");
    let ends = ends(script);
    let end = if ends.is_empty() { 0 } else { d.pick(&ends) };
    let last = SAMPLE_LIMIT.saturating_sub(end);
    match d.below(3) {
        0 => last,
        1 => last + 1,
        _ => last + d.below(500),
    }
    .min(SAMPLE_LIMIT)
}

/// The samples up to the end of each advance, as far as the script can be read.
fn ends(script: &[u8]) -> Vec<u64> {
    let mut ends = Vec::new();
    let (mut rest, mut sum) = (script, 0);
    while let Ok((field, next)) = read(rest, rest.len() == script.len()) {
        rest = next;
        if let Field::Advance(samples) = field {
            sum += u64::from(samples);
            ends.push(sum);
        }
    }
    ends
}

/// What fails of: a late start is a state that a script from 0 leaves, and a skip changes what the
/// steps in its place would.
pub fn failing(base: u64) -> Vec<String> {
    let mut d = Draws::new(base, "late starts");
    let mut failing = Vec::new();
    for n in 0..CHECKS {
        let (rate, count) = (rate(&mut d), SAMPLE_LIMIT - d.below(1 << 33));
        if codes(count, &Script::at(rate)) != codes(0, &waited(rate, count)) {
            failing.push(format!("{n}: a start at {count} of the rate {rate}"));
        }
        // At the highest rate an offset settles within some 700,000 samples.
        let samples = d.among(1_000_000, 1_100_000);
        let seed = base.wrapping_add(n);
        let (mut stepped, mut skipped) = (odd_offset(seed, rate), odd_offset(seed, rate));
        Particles::advance(&mut stepped, samples as usize);
        advance(&mut skipped, samples);
        if all(&stepped) != all(&skipped) {
            failing.push(format!("{n}: {samples} samples at the rate {rate}"));
        }
    }
    failing
}

/// A script that waits for `count` samples while the clock stands.
fn waited(rate: f32, count: u64) -> Script {
    let mut script = Script::at(rate);
    script.configure(&Settings {
        scheduled: false,
        ..settings()
    });
    let mut left = count;
    while left > 0 {
        let step = left.min(u32::MAX.into());
        script.advance(step as u32);
        left -= step;
    }
    script.configure(&settings());
    script
}

/// An engine whose clock stands, with its offset on the way to another phase.
fn odd_offset(seed: u64, rate: f32) -> Engine {
    let mut d = Draws::new(seed, "offsets");
    let mut engine: Engine = Particles::new(rate);
    for _ in 0..2 {
        let settings = Settings {
            scheduled: false,
            phase: d.between(0.0, 1.0),
            ..settings()
        };
        Particles::configure(&mut engine, &settings);
        Particles::advance(&mut engine, 1);
    }
    engine
}

fn codes(start: u64, script: &Script) -> Option<Vec<u64>> {
    let ended = run::<Engine>(start, &script.0, |_, _, _| {}).ok()?;
    Some(all(&ended.engine))
}

fn all(engine: &Engine) -> Vec<u64> {
    let mut codes = Vec::new();
    engine.visit(&mut |_, _, _, value| codes.push(value.code()));
    codes
}
