//! Scripts that meet the Rust's comparisons exactly: draws on a limit, harmonics on the ratio
//! limit, ages on a lifetime, starts on a sample, seeks on an opportunity.
use super::script::Script;
use super::values::{hz, settings};
use crate::draws::{inverse, mixed, unmixed, Draws};
use crate::field::Settings;

const SEED: u64 = 0x7765_6674_7061_7274;
const BY_INDEX: u64 = 0x9e37_79b9_7f4a_7c15;
const BY_STREAM: u64 = 0xd1b5_4a32_d192_ed03;
const ONE: u64 = 1 << 24;
const IMMEDIATE: u64 = 1 << 63;

/// The 24 bits that 000's `random` keeps, over 2^24.
fn draw(index: u64, stream: u64) -> u64 {
    mixed(SEED ^ index.wrapping_mul(BY_INDEX) ^ stream.wrapping_mul(BY_STREAM)) >> 40
}

/// An index whose draw in `stream` is exactly `top` / 2^24.
pub fn index_with(d: &mut Draws, stream: u64, top: u64) -> u64 {
    let key = unmixed(top << 40 | d.word() >> 24);
    (key ^ SEED ^ stream.wrapping_mul(BY_STREAM)).wrapping_mul(inverse(BY_INDEX))
}

/// `reserved trigger` flips the top bit of its index.
fn trigger_with(s: &mut Script, d: &mut Draws, slot: u16, stream: u64, top: u64) {
    let index = index_with(d, stream, top) ^ IMMEDIATE;
    s.reserved(slot, index);
}

/// A float's place among the 24-bit draws: 0.80 and 0.97 are such places.
pub fn top_of(x: f32) -> u64 {
    (x * 16_777_216.0) as u64
}

/// Partial counts decided by draws at 0.80 and 0.97 and beside them; weighted draws at both ends
/// and on whole weights.
pub fn draw_ties(d: &mut Draws) -> Vec<u8> {
    let mut s = Script::at(d.pick(&[16_384.0, 48_000.0, 96_000.0]));
    s.configure(&Settings {
        scheduled: false,
        partials: d.pick(&[2, 4, 8, 16, 24]),
        partial_rolloff_db: d.pick(&[0.0, 0.0, 6.0, 1.5, 24.0]),
        direction: d.below(3) as u8,
        ..settings()
    });
    s.source(0, d.pick(&[32.0, 64.0, 20.0, 21.5, 100.0]), 1.0, true);
    for _ in 0..50 {
        let by = d.below(3);
        match d.below(4) {
            0 => trigger_with(&mut s, d, 0, 12, top_of(0.80) + by - 1),
            1 => trigger_with(&mut s, d, 0, 12, top_of(0.97) + by - 1),
            2 => {
                let stream = d.pick(&[2, 7, 10, 13, 14, 15]);
                let top = d.pick(&[0, 1, ONE - 1, ONE - 2]);
                trigger_with(&mut s, d, 0, stream, top);
            }
            _ => {
                // With all weights 1 the target is a whole number.
                let top = d.below(16) * (ONE / 16);
                trigger_with(&mut s, d, 0, 13, top);
            }
        }
        if d.once_in(6) {
            s.advance(40).frame(1.0, 0.01);
        }
    }
    s.frame(1.0, 0.01);
    s.0
}

/// Harmonics exactly at the ratio limit, and windows exactly at the highest frequency.
pub fn ratio_ties(d: &mut Draws) -> Vec<u8> {
    let rate = d.pick(&[16_384.0_f32, 32_768.0, 8_192.0]);
    let mut c = Settings {
        scheduled: false,
        partials: 24,
        partial_rolloff_db: 0.0,
        release_ms: 900.0,
        ..settings()
    };
    let mut s = Script::at(rate);
    s.configure(&c);
    let power = |d: &mut Draws| (1_u32 << d.below(15)) as f32;
    for _ in 0..20 {
        s.source(0, power(d), 1.0, true);
        for _ in 0..3 {
            let top = d.pick(&[0, ONE - 1]);
            trigger_with(&mut s, d, 0, 12, top);
        }
        // An octave or more up: harmonics that were chosen now stand on the limit or above it.
        s.source(0, power(d), 1.0, true)
            .advance(25)
            .frame(0.0, 0.02);
    }
    c.shape = 1;
    c.scheduled = true;
    c.rate_hz = 32.0;
    c.partial_rolloff_db = 3.0;
    s.configure(&c).source(1, rate * 0.5, 1.0, true).retire(0);
    s.advance(4_000)
        .frame(0.0, 0.02)
        .source(1, rate * 0.25, 1.0, true);
    s.frame(0.0, 0.02);
    s.0
}

/// Frames when an age equals its lifetime, a retirement its 0.02 s, and one sample either side.
pub fn age_ties(d: &mut Draws) -> Vec<u8> {
    // At 8,192 a stage of 39.0625 ms is 320 samples; 4 s is the Cloud's longest life.
    let cloud = d.flag();
    let rate = if cloud { 8_000.0 } else { 8_192.0 };
    let stage = d.pick(&[39.0625, 78.125, 156.25]);
    let mut c = Settings {
        shape: u8::from(cloud),
        hop_samples: 0,
        rate_hz: if cloud { 0.01 } else { 1.0 },
        size_octaves: 8.0,
        scheduled: cloud,
        attack_ms: stage,
        release_ms: stage,
        ..settings()
    };
    let life = if cloud {
        32_000
    } else {
        (stage * 8.192) as u32 * 2
    };
    let mut s = Script::at(rate);
    s.configure(&c).source(0, hz(d), 1.0, true);
    if cloud {
        // The first opportunity comes on the next sample.
        let next = f64::from(draw(0, 0) as f32 / ONE as f32) - 0.5;
        s.seek(0.5 + 0.7 * next - 1e-6).advance(2);
    } else {
        s.trigger(0);
    }
    s.advance(life / 2 - 1)
        .frame(1.0, 0.02)
        .advance(1)
        .frame(1.0, 0.02);
    s.advance(life / 2 - 3).frame(1.0, 0.02);
    for _ in 0..4 {
        s.advance(1).frame(1.0, 0.02);
    }
    c.scheduled = false;
    c.shape = 0;
    s.configure(&c);
    for fade in [163, 160, 164] {
        s.trigger(0).retire(0).advance(fade - 2).frame(1.0, 0.02);
        for _ in 0..4 {
            s.advance(1).frame(1.0, 0.02);
        }
        s.source(0, hz(d), 1.0, true);
    }
    s.0
}

/// With sync and a step that is a power of two, starts fall exactly on samples.
pub fn start_ties(d: &mut Draws) -> Vec<u8> {
    let rate = d.pick(&[8_192.0_f32, 16_384.0, 32_768.0]);
    let cycles = d.pick(&[32.0_f32, 16.0, 8.0]);
    let quarter = (rate / cycles) as u32 / 4;
    let mut c = Settings {
        rate_hz: cycles,
        sync: true,
        phase: d.pick(&[0.0, 0.25, 0.5, -0.25, -1.0]),
        ..settings()
    };
    let mut s = Script::at(rate);
    s.configure(&c);
    for _ in 0..30 {
        match d.below(8) {
            0 => {
                let third = d.below(9) as f64;
                s.seek(third * 0.25 + d.below(100) as f64 * 3.0);
            }
            1 => {
                c.sync = !c.sync;
                s.configure(&c);
            }
            2 => {
                c.enabled = !c.enabled;
                s.configure(&c);
            }
            _ => {}
        }
        s.advance(quarter - 1).frame(1.0, 0.01);
        s.advance(1).frame(1.0, 0.01).advance(1).frame(1.0, 0.01);
        s.advance(quarter - 1);
    }
    s.0
}

/// Seeks that land exactly on a Cloud opportunity or on a Sprinkle start, or just beside it.
pub fn seek_ties(d: &mut Draws) -> Vec<u8> {
    let mut c = Settings {
        rate_hz: 8.0,
        ..settings()
    };
    let mut s = Script::at(d.pick(&[8_000.0, 48_000.0]));
    for turn in 0..24 {
        c.shape = turn % 2;
        c.sync = d.flag();
        c.phase = d.pick(&[0.0, 0.0, 0.5]);
        s.configure(&c);
        let far = d.pick(&[40, 1_000_000]);
        let opportunity = d.below(far);
        let cloud = opportunity as f64
            + 0.5
            + 0.7 * (f64::from(draw(opportunity, 0) as f32 / ONE as f32) - 0.5);
        let sprinkle = 0.25 * d.below(4_000) as f64;
        let at = if c.shape == 1 { cloud } else { sprinkle };
        let beside = f64::from_bits(at.to_bits().wrapping_add(d.below(3)).wrapping_sub(1));
        s.seek(beside)
            .advance(d.pick(&[0, 1, 2, 900]))
            .frame(1.0, 0.01);
        if d.once_in(3) {
            offset_tie(&mut s, d, &mut c);
            offset_jump(&mut s, d, &mut c);
            offset_jump(&mut s, d, &mut c);
        }
    }
    s.0
}

/// At sample 0 `configure` sets the offset and moves no opportunity: seek short of one by exactly
/// that offset and the next sample stands on it.
fn offset_tie(s: &mut Script, d: &mut Draws, c: &mut Settings) {
    let timing = 0.5 + 0.7 * (f64::from(draw(0, 0) as f32 / ONE as f32) - 0.5);
    let offset = d.pick(&[0.125_f32, 0.0625, 0.25]);
    c.shape = 1;
    c.phase = 0.0;
    s.reset().configure(c).seek(timing - f64::from(offset));
    c.phase = offset;
    s.configure(c)
        .advance(1)
        .frame(1.0, 0.01)
        .advance(1)
        .frame(1.0, 0.01);
}

/// In the same way the offset can jump over the starts that are left in a group, which are no
/// backlog: only the first of them is delivered.
fn offset_jump(s: &mut Script, d: &mut Draws, c: &mut Settings) {
    let group = d.below(1_000) as f64 * 3.0;
    c.shape = 0;
    c.phase = 0.0;
    s.reset()
        .configure(c)
        .seek(group + f64::from(d.between(1.8, 2.3)));
    c.phase = d.between(0.75, 0.99);
    s.configure(c)
        .advance(1)
        .frame(1.0, 0.01)
        .advance(1)
        .frame(1.0, 0.01);
}

/// The groups below 10^9 cycles whose count is decided by a draw of exactly 0.25 (the first row)
/// or 0.75, with each of the three lanes among them.
const COUNT_TIES: [[u32; 8]; 2] = [
    [
        11_278_650,
        22_538_831,
        32_690_331,
        38_387_286,
        95_539_248,
        109_777_044,
        124_177_724,
        44_592_635,
    ],
    [
        3_840_278, 10_082_616, 12_187_923, 14_790_032, 16_284_208, 20_064_663, 3_840_278,
        10_082_616,
    ],
];

/// Seeks to groups whose count draw is exactly on a limit.
pub fn count_ties(d: &mut Draws) -> Vec<u8> {
    let mut s = Script::at(8_000.0);
    for _ in 0..8 {
        s.configure(&Settings {
            rate_hz: 32.0,
            sync: d.flag(),
            ..settings()
        });
        let row = d.pick(&COUNT_TIES);
        s.seek(f64::from(d.pick(&row)) * 3.0);
        s.advance(800).frame(1.0, 0.05).frame(1.0, 0.05);
    }
    s.0
}
