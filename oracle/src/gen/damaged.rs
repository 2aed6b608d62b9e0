//! Scripts that stop or refuse: every refusal and bad number on purpose, then good scripts harmed.
use super::script::Script;
use super::values::{rate, settings, usual};
use super::KINDS;
use crate::draws::Draws;
use crate::runner::SCRIPT_LIMIT;

/// A good script of another kind with some bytes changed, lost, doubled or cut off.
pub fn damaged(d: &mut Draws) -> Vec<u8> {
    let kind = loop {
        let kind = &KINDS[d.below(KINDS.len() as u64) as usize];
        if !matches!(kind.name, "damaged" | "long" | "sizes") {
            break kind;
        }
    };
    let mut bytes = (kind.make)(d);
    for _ in 0..d.among(1, 3) {
        if bytes.is_empty() {
            break;
        }
        let at = d.below(bytes.len() as u64) as usize;
        match d.below(6) {
            0 => bytes.truncate(at + 1),
            1 => {
                bytes.remove(at);
            }
            2 => bytes.insert(at, d.word() as u8),
            3 => bytes[at] ^= 1 << d.below(8),
            4 => bytes[at] = d.pick(&[0, 1, 2, 3, 13, 14, 255]),
            _ => {
                let end = (at + d.below(40) as usize).min(bytes.len());
                let copy = bytes[at..end].to_vec();
                bytes.splice(at..at, copy);
            }
        }
    }
    tame(bytes)
}

/// Harm can make an advance of billions of samples. It stays lawful but short: what is compared
/// is the reading, and a long run is the business of other kinds.
fn tame(mut bytes: Vec<u8>) -> Vec<u8> {
    let mut at = 0;
    while at + 3 <= bytes.len() {
        if bytes[at..].starts_with(&[8, 0, 4]) {
            for b in bytes.iter_mut().skip(at + 3).take(2) {
                *b = 0;
            }
        }
        at += 3 + usize::from(u16::from_be_bytes([bytes[at + 1], bytes[at + 2]]));
    }
    bytes
}

/// Each engine refusal beside a call that just passes.
pub fn refused(d: &mut Draws) -> Vec<u8> {
    let mut s = Script::at(rate(d));
    s.source(0, 440.0, 1.0, true);
    for _ in 0..40 {
        let slot = d.pick(&[0, 255, 256, 257, 65_535]);
        match d.below(9) {
            0 => s.source(slot, 330.0, 0.5, d.flag()),
            1 => s.retire(slot),
            2 => s.release(slot),
            3 => s.trigger(slot),
            4 => s.reserved(slot, d.below(9)),
            5 => {
                let mut c = usual(d);
                c.hop_samples = d.pick(&[16_383, 16_384, 16_385, u32::MAX]);
                s.configure(&c)
            }
            6 => s.frame(
                1.0,
                d.pick(&[-0.0, -1e-45, f32::NAN, f32::INFINITY, f32::MAX, -1.0]),
            ),
            _ => s.advance(d.among(0, 2_000)).frame(1.0, 0.03),
        };
    }
    s.0
}

/// A good beginning, then one field that must stop the script, and more after it.
pub fn bad(d: &mut Draws) -> Vec<u8> {
    let mut s = Script::at(rate(d));
    for _ in 0..d.below(4) {
        s.trigger(d.pick(&[3, 300])).advance(100).frame(1.0, 0.1);
    }
    let tag = d.among(1, 13) as u8;
    match d.below(9) {
        0 => s.field(d.pick(&[0, 14, 15, 32, 255]), &[]),
        1 => s.field(1, &48_000.0_f32.to_be_bytes()),
        2 => s.field(1, &[0; 3]),
        3 => s.field(tag, &[0; 5]),
        4 => s.field(tag, &[]),
        5 => s.field(10, &[d.pick(&[0, 1, 2, 255])]),
        6 => s.field(
            3,
            &[
                d.below(2) as u8,
                0,
                0,
                0,
                0,
                0,
                0,
                0,
                0,
                0,
                d.below(4) as u8,
            ],
        ),
        7 => {
            // A byte of the settings that may or may not be lawful, with a hop that is refused.
            let mut c = Script::default();
            let mut lawful = settings();
            lawful.hop_samples = d.pick(&[5, 20_000]);
            c.configure(&lawful);
            let at = 3 + d.pick(&[0, 1, 2, 15, 16]);
            c.0[at] = d.pick(&[0, 1, 2, 3, 200]);
            s.0.extend(c.0);
            &mut s
        }
        _ => {
            s.0.extend(vec![tag; d.among(1, 2) as usize]);
            return s.0;
        }
    };
    s.frame(1.0, 0.1);
    if d.once_in(4) {
        let last = s.0.len() - d.below(8) as usize;
        s.0.truncate(last);
    }
    s.0
}

/// What stands first: nothing, part of a header, another tag, a rate just inside or outside.
pub fn first_field(d: &mut Draws) -> Vec<u8> {
    let edge = |x: f32, by: i32| f32::from_bits(x.to_bits().wrapping_add_signed(by));
    let by = d.below(3) as i32 - 1;
    let mut s = match d.below(8) {
        0 => return Vec::new(),
        1 => return vec![d.below(15) as u8; d.among(1, 2) as usize],
        2 => Script::at(edge(8_000.0, by)),
        3 => Script::at(edge(384_000.0, by)),
        4 => Script::at(d.pick(&[f32::NAN, f32::INFINITY, -48_000.0, 0.0, -0.0, 1e-45])),
        5 => {
            let mut s = Script::default();
            s.field(1, &vec![71; d.below(6) as usize]);
            s
        }
        6 => {
            let mut s = Script::default();
            s.field(d.among(0, 14) as u8, &vec![0; d.below(12) as usize]);
            s
        }
        _ => {
            let mut s = Script::at(48_000.0);
            let last = d.below(s.0.len() as u64) as usize;
            s.0.truncate(last);
            return s.0;
        }
    };
    s.advance(300).frame(2.0, 0.05);
    s.0
}

/// Scripts at and around 60,000 bytes.
pub fn sizes(d: &mut Draws) -> Vec<u8> {
    let mut s = Script::at(8_000.0);
    s.frame(1.0, 0.1);
    let goal = SCRIPT_LIMIT + d.below(4) as usize - 2;
    while s.0.len() + 3 <= goal {
        s.reserve();
    }
    while s.0.len() < goal {
        s.0.push(d.below(16) as u8);
    }
    s.0
}
