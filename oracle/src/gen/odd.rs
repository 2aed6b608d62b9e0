//! Scripts whose numbers are at the edges: NaN, infinities, subnormals, minus zero, far seeks.
use super::script::Script;
use super::values::{hz, odd, odd_settings, rate, settings, usual};
use crate::draws::Draws;
use crate::field::Settings;

pub fn odd_cycles(d: &mut Draws) -> f64 {
    let far = d.between(0.0, 1e9);
    match d.below(6) {
        0 => f64::from_bits(d.word()),
        1 => f64::from(far),
        2 => -f64::from(far),
        3 => f64::from(odd(d)),
        _ => d.pick(&[
            0.0,
            -0.0,
            -1e9,
            1e9,
            -2e9,
            999_999_999.999_999,
            -1.0 / (1_u64 << 60) as f64,
            -5e-324,
            1e300,
            f64::NAN,
            f64::INFINITY,
            f64::NEG_INFINITY,
            2.75,
            -0.25,
            333_333_333.0 * 3.0,
        ]),
    }
}

/// Seeks to negative, huge, not finite and minus-zero places, with both shapes.
pub fn seeks(d: &mut Draws) -> Vec<u8> {
    let mut s = Script::at(rate(d));
    s.source(0, hz(d), 0.6, d.flag());
    for _ in 0..25 {
        if d.once_in(3) {
            let mut c = usual(d);
            c.enabled = true;
            s.configure(&c).trigger(0);
        }
        s.seek(odd_cycles(d)).advance(d.among(0, 2_000));
        s.frame(8.0, 0.04);
    }
    s.0
}

/// Settings that `configure` must mend, also at sample 0, where the offset jumps.
pub fn settings_mended(d: &mut Draws) -> Vec<u8> {
    let mut s = Script::at(rate(d));
    s.source(0, hz(d), 0.6, true).source(1, hz(d), 0.9, true);
    for turn in 0..16 {
        s.configure(&odd_settings(d));
        if turn > 2 {
            s.trigger(0).advance(d.among(0, 3_000)).frame(8.0, 0.04);
        }
    }
    s.0
}

/// Sources that are NaN, zero of both signs, too high, subnormal, ineligible.
pub fn odd_sources(d: &mut Draws) -> Vec<u8> {
    let mut s = Script::at(rate(d));
    let mut c = usual(d);
    c.enabled = true;
    c.rate_hz = 32.0;
    c.release_ms = 400.0;
    s.configure(&c).note_input(d.flag());
    for _ in 0..40 {
        let slot = d.below(3) as u16;
        let pitch = if d.flag() { odd(d) } else { hz(d) };
        let strength = if d.flag() { odd(d) } else { 0.5 };
        s.source(slot, pitch, strength, !d.once_in(4));
        if d.flag() {
            s.source(slot, -pitch, strength, true);
            s.source(slot, pitch, strength, d.flag());
        }
        s.trigger(slot).advance(d.among(0, 800));
        s.frame(4.0, 0.02);
    }
    s.0
}

/// Frames with every kind of bin width and elapsed time, while enabled and while fading out.
pub fn frames(d: &mut Draws) -> Vec<u8> {
    let mut s = Script::at(rate(d));
    let mut c = Settings {
        rate_hz: 32.0,
        size_octaves: 0.125,
        partials: 24,
        ..settings()
    };
    s.configure(&c);
    if d.flag() {
        // So short that activity stays faint, though enabled.
        s.frame(1.0, 3e-8);
    }
    for _ in 0..40 {
        let elapsed = match d.below(4) {
            0 => odd(d),
            1 => d.pick(&[0.0, -0.0, 1e-45, 3e-8, 0.05, 1.0, f32::MAX]),
            _ => d.between(0.0, 0.2),
        };
        let bin_hz = if d.flag() {
            odd(d)
        } else {
            d.between(0.0, 400.0)
        };
        s.advance(d.among(0, 1_000)).frame(bin_hz, elapsed);
        if d.once_in(5) {
            c.enabled = !c.enabled;
            s.configure(&c);
        }
    }
    s.0
}

/// Rates at both ends and not whole, with the long stages that show the milliseconds.
pub fn rates(d: &mut Draws) -> Vec<u8> {
    let rate = match d.below(3) {
        0 => d.pick(&[8_000.0_f32, 384_000.0, 8_000.000_5, 383_999.97]),
        1 => d.between(8_000.0, 384_000.0),
        _ => d.pick(&[47_952.047, 8_000.999_5, 44_099.996, 40_000.0, 39_999.996]),
    };
    let mut s = Script::at(rate);
    let mut c = usual(d);
    c.enabled = true;
    c.scheduled = true;
    c.rate_hz = 32.0;
    s.configure(&c);
    for _ in 0..8 {
        s.advance(d.among(1, 8_000)).frame(rate / 4_096.0, 0.05);
    }
    s.0
}

/// Any lawful field after any other, mostly with odd numbers.
pub fn anything(d: &mut Draws) -> Vec<u8> {
    let mut s = Script::at(rate(d));
    for _ in 0..90 {
        let slot = d.pick(&[0, 1, 2, 3, 255, 256, 40_000]);
        match d.below(14) {
            0 => s.configure(&odd_settings(d)),
            1 => s.configure(&usual(d)),
            2 => s.source(slot, odd(d), odd(d), d.flag()),
            3 => s.source(slot, hz(d), d.between(0.0, 1.0), true),
            4 => s.retire(slot),
            5 => s.release(slot),
            6 => s.trigger(slot),
            7 => s.seek(odd_cycles(d)),
            8 => s.frame(odd(d), odd(d)),
            9 => s.note_input(d.flag()),
            10 if d.once_in(6) => s.reset(),
            11 => s.reserve(),
            12 => s.reserved(slot, d.word()),
            _ => s.advance(d.among(0, 2_500)).frame(20.0, 0.04),
        };
    }
    s.0
}
