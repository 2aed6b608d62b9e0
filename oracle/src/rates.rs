//! Listings about a change of millisecond: frames at rates that are whole numbers and at others, at
//! counts of samples up to 2^40.
use crate::draws::Draws;
use crate::gen::script::Script;
use crate::gen::values::RATES;
use crate::listing::listing;
use crate::milliseconds::{first_sample, milliseconds};
use crate::original::Engine;
use crate::part::Part;
use crate::port;
use crate::runner::SAMPLE_LIMIT;
use crate::scripts::listing_same;

/// How many listings are compared, of five frames each.
const LISTINGS: u64 = 20_000;

/// A lawful rate: any float among them, one pulled down or up by 1.001, at an end or beside it, a usual
/// one, any whole one.
fn rate(d: &mut Draws) -> f32 {
    let usual = d.pick(&RATES);
    let any = f32::from_bits(d.among(8_000_f32.to_bits(), 384_000_f32.to_bits()));
    let lowest = f32::from_bits(8_000_f32.to_bits() + d.among(0, 3));
    let highest = f32::from_bits(384_000_f32.to_bits() - d.among(0, 3));
    let whole = d.among(8_000, 384_000) as f32;
    let chosen = d.pick(&[
        any,
        any,
        usual / 1.001,
        usual * 1.001,
        lowest,
        highest,
        usual,
        whole,
    ]);
    chosen.clamp(8_000.0, 384_000.0)
}

/// A frame at each of five samples, from two before the first of a millisecond on, or from 0; and the
/// sample that they start at.
fn about(d: &mut Draws) -> (u64, Script) {
    let rate = rate(d);
    let last = milliseconds(SAMPLE_LIMIT, rate) as u64;
    let within = last >> d.below(40);
    let any = d.below(within + 1);
    let ms = d.pick(&[last, within, any, 7_200_000]);
    let start = first_sample(ms.into(), rate).saturating_sub(2);
    let mut script = Script::at(rate);
    for _ in 0..5 {
        script.frame(rate / 4_096.0, 0.02).advance(1);
    }
    (start, script)
}

/// The lines that the reading has for `count` of them.
pub fn lines(seed: u64, count: u64) -> String {
    let mut d = Draws::new(seed, "milliseconds");
    (0..count)
        .map(|_| {
            let (start, script) = about(&mut d);
            listing::<Engine>(start, &script.0)
        })
        .collect()
}

pub fn compare(base: u64) -> Part {
    let mut part = Part::new(
        "milliseconds in rk_probe_listing_from".into(),
        port::LATE_LISTED && port::LISTED,
    );
    let mut d = Draws::new(base, "milliseconds");
    for _ in 0..LISTINGS {
        let (start, script) = about(&mut d);
        if let Some(same) = listing_same(start, &script.0, 0) {
            part.add(format_args!("from {start}, {:02x?}", script.0), same);
        }
    }
    part
}

/// How many milliseconds are checked at drawn rates, and at drawn whole ones.
const CHECKS: usize = 10_000;

/// What the reading fails of 02, and how many checks there were: every lawful rate times 2,048 is a whole
/// number; with that number in the rate's place the rule has the milliseconds between its two sides; and
/// at whole rates they are those by the whole part.
pub fn failing(base: u64) -> (usize, Vec<String>) {
    let lawful = 8_000_f32.to_bits()..=384_000_f32.to_bits();
    let scaled = |rate: f32| f64::from(rate) * 2_048.0;
    let checks = lawful.clone().count() + 2 * CHECKS;
    let mut failing: Vec<String> = lawful
        .map(f32::from_bits)
        .filter(|rate| scaled(*rate).fract() != 0.0)
        .map(|rate| format!("the rate {rate}"))
        .collect();
    let mut d = Draws::new(base, "rates");
    for _ in 0..CHECKS {
        let (rate, samples) = (rate(&mut d), d.below(SAMPLE_LIMIT + 1));
        let (ms, parts) = (milliseconds(samples, rate), scaled(rate) as u128);
        let thousands = u128::from(samples) * 2_048_000;
        if !(ms * parts <= thousands && thousands < (ms + 1) * parts) {
            failing.push(format!("{samples} samples at {rate}"));
        }
        let (rate, samples) = (d.among(8_000, 384_000), d.below(SAMPLE_LIMIT + 1));
        if milliseconds(samples, rate as f32) != u128::from(samples * 1000 / u64::from(rate)) {
            failing.push(format!("{samples} samples at the whole rate {rate}"));
        }
    }
    (checks, failing)
}
