//! Numbers worth trying: lawful rates and settings, notes, and the floats at the edges.
use crate::draws::Draws;
use crate::field::Settings;

pub fn settings() -> Settings {
    Settings {
        enabled: true,
        shape: 0,
        direction: 0,
        rate_hz: 1.0,
        size_octaves: 1.0,
        phase: 0.0,
        scheduled: true,
        sync: false,
        hop_samples: 2048,
        partials: 1,
        partial_rolloff_db: 6.0,
        attack_ms: 0.0,
        release_ms: 70.0,
    }
}

/// Settings as people choose them, quick enough to give births in a short run.
pub fn usual(d: &mut Draws) -> Settings {
    Settings {
        enabled: !d.once_in(12),
        shape: d.below(2) as u8,
        direction: d.below(3) as u8,
        rate_hz: d.pick(&[0.5, 1.0, 2.0, 5.5, 12.0, 20.0, 32.0]),
        size_octaves: d.between(0.1, 9.0),
        phase: d.pick(&[0.0, 0.25, 0.5, 0.75, 0.125, 0.9]),
        scheduled: !d.once_in(8),
        sync: d.flag(),
        hop_samples: d.pick(&[0, 256, 512, 2048, 8192, 16_384]),
        partials: d.pick(&[0, 1, 2, 3, 8, 16, 24, 25]),
        partial_rolloff_db: d.pick(&[0.0, 3.0, 6.0, 12.0, 24.0]),
        attack_ms: d.pick(&[0.0, 1.0, 5.0, 40.0, 300.0]),
        release_ms: d.pick(&[0.0, 10.0, 70.0, 400.0, 2500.0]),
    }
}

pub const RATES: [f32; 12] = [
    8_000.0, 8_192.0, 11_025.0, 16_384.0, 22_050.0, 32_768.0, 44_100.0, 48_000.0, 88_200.0,
    96_000.0, 192_000.0, 384_000.0,
];

/// A lawful rate, mostly a low one: there a second has fewer samples and more happens in each.
pub fn rate(d: &mut Draws) -> f32 {
    match d.below(8) {
        0 => d.between(8_000.0, 60_000.0),
        1 => d.pick(&[48_000.0 / 1.001, 44_100.5, 8_000.001, 383_999.97]),
        2 => d.pick(&RATES),
        _ => d.pick(&RATES[..4]),
    }
}

/// A pitch somewhere from 16 Hz to 16 kHz, made with no library function, so that a seed gives the
/// same script on every machine.
pub fn hz(d: &mut Draws) -> f32 {
    d.between(16.0, 32.0) * (1_u32 << d.below(9)) as f32
}

pub const ODD: [f32; 26] = [
    0.0,
    -0.0,
    1.0,
    -1.0,
    0.5,
    -0.5,
    f32::NAN,
    f32::INFINITY,
    f32::NEG_INFINITY,
    f32::MIN_POSITIVE,
    -f32::MIN_POSITIVE,
    1e-45,
    -1e-45,
    1e-40,
    f32::MAX,
    f32::MIN,
    f32::EPSILON,
    0.999_999_94,
    1.000_000_1,
    20.0,
    440.0,
    4_186.01,
    20_000.0,
    5_000.0,
    16_777_216.0,
    1e9,
];

/// A float from the edges, any bits, or a usual one.
pub fn odd(d: &mut Draws) -> f32 {
    match d.below(5) {
        0 => f32::from_bits(d.word() as u32),
        1 => d.between(-10.0, 10.0),
        // Another NaN pattern, of either sign.
        2 if d.once_in(3) => f32::from_bits(0x7f80_0001 | (d.word() as u32 & 0x803f_ffff)),
        _ => d.pick(&ODD),
    }
}

/// Settings whose floats are mostly odd.
pub fn odd_settings(d: &mut Draws) -> Settings {
    let mut s = usual(d);
    let mut turn = |x: &mut f32| {
        if !d.once_in(3) {
            *x = odd(d);
        }
    };
    turn(&mut s.rate_hz);
    turn(&mut s.size_octaves);
    turn(&mut s.phase);
    turn(&mut s.partial_rolloff_db);
    turn(&mut s.attack_ms);
    turn(&mut s.release_ms);
    if d.once_in(4) {
        s.partials = d.word() as u32;
    }
    s
}
