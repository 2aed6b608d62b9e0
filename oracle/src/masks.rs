//! Cases for the mask call and the bin table, by seed, and their answers as lines.
use crate::bytes::encode;
use crate::draws::Draws;
use crate::engine::Frame;
use crate::gen::values::{odd, rate, RATES};
use crate::mask;
use crate::original::{open, Engine};
use crate::runner::{call, Answer};
use crate::value::bits32;
use std::fmt::Write;

pub struct Case {
    pub frame: Frame,
    pub depth_db: f32,
    pub logs: Vec<f32>,
    pub scratch: Vec<f32>,
    pub output: Vec<f32>,
}

pub fn case(d: &mut Draws) -> Case {
    let logs = logs(d);
    let length = |d: &mut Draws| logs.len() + usize::from(d.once_in(12));
    let (scratch, output) = (length(d), length(d));
    Case {
        frame: frame(d, &logs),
        depth_db: match d.below(3) {
            0 => odd(d),
            _ => d.between(-2.0, 70.0),
        },
        scratch: vec![7.5; scratch],
        output: vec![-3.0; output],
        logs,
    }
}

pub fn frame(d: &mut Draws, logs: &[f32]) -> Frame {
    let mut frame = Frame::empty();
    frame.activity = match d.below(4) {
        0 => odd(d),
        _ => d.between(0.0, 1.0),
    };
    let odd_ones = d.once_in(2);
    for _ in 0..d.among(0, 40) {
        let radius = d.between(0.05, 4.0);
        // A window may begin or end, as rounded, exactly at a bin.
        let centre = match d.below(4) {
            0 if !logs.is_empty() => d.pick(logs) - radius,
            1 if !logs.is_empty() => d.pick(logs) + radius,
            _ => d.between(3.0, 15.0),
        };
        let window = [centre, radius, d.between(0.0, 1.0)];
        frame.windows[d.below(192) as usize] =
            window.map(|x| if odd_ones && d.once_in(4) { odd(d) } else { x });
    }
    frame
}

/// Logs of a bin table, or sorted ones on a coarse grid that windows meet exactly, or odd ones.
fn logs(d: &mut Draws) -> Vec<f32> {
    let mut logs = match d.below(3) {
        0 => open::bin_table(d.pick(&RATES), d.among(1, 1_024) as usize),
        1 => open::bin_table(rate(d), d.pick(&[1, 2, 3, 4, 256, 16_384])),
        _ => {
            let mut at = d.between(-2.0, 4.0).floor();
            let mut step = || {
                at += 0.25 * d.below(3) as f32;
                at
            };
            (0..60).map(|_| step()).collect()
        }
    };
    if d.once_in(3) && !logs.is_empty() {
        logs[0] = odd(d);
    }
    if d.once_in(6) {
        let at = d.below(logs.len() as u64) as usize;
        logs[at] = odd(d);
    }
    if d.once_in(20) {
        logs.clear();
    }
    logs
}

/// Bits of a few floats as they are, of many as one number.
fn shown(floats: &[f32]) -> String {
    let mut sum = crate::digest::Digest::default();
    floats.iter().for_each(|x| sum.word(bits32(*x).into()));
    format!("{} floats {:016x}", floats.len(), sum.0)
}

/// One line for each mask case: the answer, then what output and scratch hold. Where 01 does not
/// differ the original must answer the same with the logs as they are, and each gain must be that of
/// the decibels which records are made of; the second number counts those where one isn't so.
pub fn mask_lines(seed: u64, count: usize) -> (String, usize) {
    let mut d = Draws::new(seed, "mask");
    let mut text = String::new();
    let mut differ = 0;
    for _ in 0..count {
        let mut c = case(&mut d);
        let (mut scratch, mut output) = (c.scratch.clone(), c.output.clone());
        let answer = mask::gains(&c.frame, c.depth_db, &c.logs, &mut c.scratch, &mut c.output);
        let (out, held) = (shown(&c.output), shown(&c.scratch));
        writeln!(text, "mask {answer} output {out} scratch {held}").unwrap();
        if answer == 0 {
            let mut opened = scratch.clone();
            let decibels = mask::decibels(&c.frame, c.depth_db, &c.logs, &mut opened);
            let gains: Vec<f32> = decibels.iter().map(|db| open::db_to_gain(*db)).collect();
            if shown(&gains) != out || shown(&opened) != held {
                writeln!(text, "mask by decibels differs").unwrap();
                differ += 1;
            }
        }
        if answer == 0 && mask::original_agrees(&c.logs) {
            open::gains(&c.frame, c.depth_db, &c.logs, &mut scratch, &mut output);
            if shown(&output) != out || shown(&scratch) != held {
                writeln!(text, "mask alone differs").unwrap();
                differ += 1;
            }
        }
    }
    (text, differ)
}

/// Rate, FFT size and length of the lent table.
pub fn bins_case(d: &mut Draws) -> (f32, u64, usize) {
    let rate = match d.below(4) {
        0 => odd(d),
        1 => d.pick(&[8_000.0, 384_000.0, 7_999.999_5, 384_000.03]),
        _ => rate(d),
    };
    let size = match d.below(3) {
        0 => d.pick(&[0, 1, 2, 3, 16_383, 16_384, 16_385, u64::MAX]),
        _ => d.below(16_400),
    };
    let length = (size.min(20_000) / 2 + u64::from(!d.once_in(8))) as usize;
    (rate, size, length)
}

/// One line for each bin table.
pub fn bin_lines(seed: u64, count: usize) -> String {
    let mut d = Draws::new(seed, "bins");
    let mut text = String::new();
    for _ in 0..count {
        let (rate, size, length) = bins_case(&mut d);
        let mut table = vec![9.25; length];
        let answer = mask::bin_table(rate, size, &mut table);
        writeln!(
            text,
            "bins {:08x} {size} answer {answer} {}",
            bits32(rate),
            shown(&table)
        )
        .unwrap();
    }
    text
}

/// Attenuation of frames that an engine made.
pub fn attenuation_lines(seed: u64, count: usize) -> String {
    use crate::field::Field;
    let mut d = Draws::new(seed, "attenuation");
    let mut text = String::new();
    let mut engine = Engine::new(48_000.0);
    for _ in 0..count {
        call(&mut engine, Field::Advance(d.among(0, 9_000)));
        if let Answer::Framed(frame) = call(&mut engine, Field::Frame(10.0, 0.04)) {
            let (hz, depth) = match d.below(3) {
                0 => (odd(&mut d), odd(&mut d)),
                _ => (d.between(0.0, 9_000.0), d.between(-1.0, 70.0)),
            };
            let db = open::attenuation_db(&frame, hz, depth);
            let sum = encode(&frame).iter().map(|b| u64::from(*b)).sum::<u64>();
            writeln!(
                text,
                "attenuation {sum} {:08x} {:08x} -> {:08x}",
                bits32(hz),
                bits32(depth),
                bits32(db)
            )
            .unwrap();
        }
    }
    text
}
