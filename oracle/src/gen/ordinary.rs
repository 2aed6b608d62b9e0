//! Scripts as people write them: one of the two shapes or both, with notes and without.
use super::script::Script;
use super::values::{hz, rate, settings, usual};
use crate::draws::Draws;
use crate::field::Settings;

const SHOW: (f32, f32) = (23.4375, 0.0427);

/// Advances in uneven steps with a frame after most of them, `total` samples in all.
fn play(s: &mut Script, d: &mut Draws, total: u32) {
    let mut left = total;
    while left > 0 {
        let step = d.among(1, 2_048).min(left);
        s.advance(step);
        left -= step;
        if !d.once_in(5) {
            s.frame(SHOW.0, SHOW.1);
        }
    }
}

fn shaped(d: &mut Draws, shape: u8) -> Script {
    let mut s = Script::at(rate(d));
    s.configure(&Settings {
        enabled: true,
        scheduled: true,
        shape,
        ..usual(d)
    });
    s
}

/// Sprinkle with no notes at all.
pub fn sprinkle(d: &mut Draws) -> Vec<u8> {
    let mut s = shaped(d, 0);
    play(&mut s, d, 40_000);
    s.0
}

/// Cloud with no notes at all.
pub fn cloud(d: &mut Draws) -> Vec<u8> {
    let mut s = shaped(d, 1);
    play(&mut s, d, 40_000);
    s.0
}

/// A few notes that come, change, stop and come again.
pub fn notes(d: &mut Draws) -> Vec<u8> {
    let shape = d.below(2) as u8;
    let mut s = shaped(d, shape);
    s.note_input(true);
    for _ in 0..24 {
        let slot = d.below(6) as u16;
        match d.below(7) {
            0 => s.retire(slot),
            1 => s.release(slot),
            2 => s.note_input(d.flag()),
            3 => s.trigger(slot),
            _ => s.source(slot, hz(d), d.between(0.0, 1.2), !d.once_in(4)),
        };
        play(&mut s, d, 1_500);
    }
    s.0
}

/// Every setting changes in the middle: shape, enabled, sync, phase, direction, rolloff.
pub fn switches(d: &mut Draws) -> Vec<u8> {
    let mut s = Script::at(rate(d));
    for slot in 0..3 {
        s.source(slot, hz(d), 0.9, true);
    }
    for _ in 0..20 {
        s.configure(&usual(d));
        play(&mut s, d, 2_000);
    }
    s.0
}

/// One setting at a time, so that what a single change leaves behind shows.
pub fn one_switch(d: &mut Draws) -> Vec<u8> {
    let mut c = Settings {
        rate_hz: 20.0,
        release_ms: 300.0,
        ..settings()
    };
    let mut s = Script::at(rate(d));
    s.configure(&c);
    for _ in 0..30 {
        match d.below(8) {
            0 => c.enabled = !c.enabled,
            1 => c.shape = 1 - c.shape,
            2 => c.sync = !c.sync,
            3 => c.phase = d.between(-1.5, 1.5),
            4 => c.direction = d.below(3) as u8,
            5 => c.scheduled = !c.scheduled,
            6 => c.partial_rolloff_db = d.between(0.0, 24.0),
            _ => c.rate_hz = d.between(1.0, 32.0),
        }
        s.configure(&c);
        play(&mut s, d, 1_200);
    }
    s.0
}

/// The clock stands still: triggers alone give births.
pub fn unscheduled(d: &mut Draws) -> Vec<u8> {
    let mut s = Script::at(rate(d));
    s.configure(&Settings {
        scheduled: false,
        shape: 0,
        enabled: true,
        ..usual(d)
    });
    for _ in 0..30 {
        let slot = d.below(4) as u16;
        match d.below(3) {
            0 => s.source(slot, hz(d), 0.7, true),
            _ => s.trigger(slot),
        };
        play(&mut s, d, 800);
    }
    s.0
}

/// A reset in the middle keeps the rate and nothing else.
pub fn resets(d: &mut Draws) -> Vec<u8> {
    let mut s = Script::at(rate(d));
    for _ in 0..4 {
        s.configure(&usual(d)).source(7, hz(d), 1.0, true);
        s.note_input(d.flag()).trigger(7).reserve();
        play(&mut s, d, 5_000);
        s.reset();
        if d.flag() {
            s.frame(SHOW.0, SHOW.1);
        }
    }
    play(&mut s, d, 3_000);
    s.0
}

/// One advance in many parts beside others in one: the splits must not show.
pub fn long(d: &mut Draws) -> Vec<u8> {
    let mut s = Script::at(rate(d));
    let mut c = usual(d);
    c.enabled = true;
    s.configure(&c).source(1, hz(d), 0.5, true);
    for _ in 0..3 {
        s.advance(20_000).frame(SHOW.0, SHOW.1);
        s.advance(1).advance(0).advance(2).frame(SHOW.0, 0.0);
    }
    s.0
}
