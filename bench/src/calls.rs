//! A list of calls, as a script for the port and on the original's engine.
use crate::particles::{Config, Engine, Shape, Source};
use std::hint::black_box;

pub const RATE: f32 = 48_000.0;

#[derive(Clone, Copy)]
pub enum Call {
    Configure(Config),
    Source(u16, f32),
    Trigger(u16),
    Advance(u32),
    Frame(f32),
    NoteInput(bool),
    /// Of the original alone: the line of the frame before it, which a script works out, has the number.
    ActiveCount,
}

/// Field by field as 01's table has them.
pub fn script(calls: &[Call]) -> Vec<u8> {
    let mut bytes = Vec::new();
    field(&mut bytes, 1, &RATE.to_bits().to_be_bytes());
    for call in calls {
        match *call {
            Call::Configure(c) => field(&mut bytes, 2, &settings(&c)),
            Call::Source(slot, hz) => {
                let mut value = slot.to_be_bytes().to_vec();
                value.extend(hz.to_bits().to_be_bytes());
                value.extend(1.0f32.to_bits().to_be_bytes());
                value.push(1);
                field(&mut bytes, 3, &value);
            }
            Call::Trigger(slot) => field(&mut bytes, 6, &slot.to_be_bytes()),
            Call::Advance(samples) => field(&mut bytes, 8, &samples.to_be_bytes()),
            Call::Frame(seconds) => {
                let mut value = BIN_HZ.to_bits().to_be_bytes().to_vec();
                value.extend(seconds.to_bits().to_be_bytes());
                field(&mut bytes, 9, &value);
            }
            Call::NoteInput(present) => field(&mut bytes, 10, &[present.into()]),
            Call::ActiveCount => {}
        }
    }
    bytes
}

const BIN_HZ: f32 = RATE / 16_384.0;

fn field(bytes: &mut Vec<u8>, tag: u8, value: &[u8]) {
    bytes.push(tag);
    bytes.extend((value.len() as u16).to_be_bytes());
    bytes.extend(value);
}

fn settings(c: &Config) -> Vec<u8> {
    let mut value = vec![
        c.enabled as u8,
        (c.shape == Shape::Cloud) as u8,
        c.direction as u8,
    ];
    for x in [c.rate_hz, c.size_octaves, c.phase] {
        value.extend(x.to_bits().to_be_bytes());
    }
    value.extend([c.scheduled as u8, c.sync as u8]);
    for n in [c.hop_samples as u32, c.partials as u32] {
        value.extend(n.to_be_bytes());
    }
    for x in [c.partial_rolloff_db, c.attack_ms, c.release_ms] {
        value.extend(x.to_bits().to_be_bytes());
    }
    value
}

/// The same on the original; its last frame's activity is handed back, so that no call is left out.
pub fn original(calls: &[Call]) -> f32 {
    let mut engine = Engine::new(RATE);
    let mut activity = 0.0;
    for call in calls {
        match *call {
            Call::Configure(config) => engine.configure(config),
            Call::Source(slot, frequency_hz) => engine.set_source(
                slot.into(),
                Source {
                    frequency_hz,
                    strength: 1.0,
                    eligible: true,
                },
            ),
            Call::Trigger(slot) => engine.trigger(slot.into()),
            Call::Advance(samples) => engine.advance(samples as usize),
            Call::Frame(seconds) => activity = engine.frame(BIN_HZ, seconds).activity,
            Call::NoteInput(present) => engine.set_note_input_present(black_box(present)),
            Call::ActiveCount => {
                black_box(engine.active_count());
            }
        }
    }
    activity
}

/// The original's `active_count` after each of so many triggers, if it is asked for: the sum of its
/// answers.
pub fn active_counts(events: u64, asked: bool) -> u64 {
    let mut engine = Engine::new(RATE);
    engine.set_source(
        0,
        Source {
            frequency_hz: 440.0,
            strength: 1.0,
            eligible: true,
        },
    );
    let mut sum = 0;
    for _ in 0..events {
        engine.trigger(0);
        if asked {
            sum += engine.active_count() as u64;
        }
    }
    sum
}
