//! Frames to be written as records of mask files, by seed, and the reading's answers to these and to the
//! bytes of `record_bytes` as lines.
use crate::digest::Digest;
use crate::draws::Draws;
use crate::ends::{ends, up_to};
use crate::engine::Frame;
use crate::field::{read as read_field, Field};
use crate::gen::{script, KINDS};
use crate::lent;
use crate::masks;
use crate::original::{open, Engine};
use crate::record_bytes::{nearly, Lent};
use crate::records::{read, write, Read, BINS, HEAD};
use crate::runner::{run, Answer};
use crate::scripts::UNTOUCHED;
use crate::value::bits32;
use crate::writing::place;
use std::fmt::Write;

/// A frame to be written behind `at` bytes of a buffer.
pub struct Case {
    pub sample: u64,
    pub frame: Frame,
    pub depth_db: f32,
    pub logs: Vec<f32>,
    pub scratch: Vec<f32>,
    pub room: usize,
    pub at: u64,
}

/// A mask call's arguments, in a drawn room.
fn placed(mask: masks::Case, d: &mut Draws) -> Case {
    let (room, at) = place((HEAD + 2 * mask.logs.len()) as u64, d);
    Case {
        sample: d.word() >> d.below(64),
        frame: mask.frame,
        depth_db: mask.depth_db,
        logs: mask.logs,
        scratch: mask.scratch,
        room: room as usize,
        at,
    }
}

/// Half a tenth more than n of them, or a float beside that.
fn tie(n: u64, beside: u64) -> f32 {
    let half = (2 * n + 1) as f32 / 20.0;
    f32::from_bits(half.to_bits() + beside as u32 - 1)
}

pub fn case(d: &mut Draws) -> Case {
    let mut mask = masks::case(d);
    // What no window opens is then attenuated by the depth itself.
    if d.once_in(4) {
        (mask.depth_db, mask.frame.activity) = (tie(d.below(600), d.below(3)), 1.0);
    }
    if d.once_in(24) {
        let more = BINS + d.below(4) as usize;
        let last = mask.logs.last().copied().unwrap_or_default();
        mask.logs.resize(more, last);
        mask.scratch.resize(more, 7.5);
    }
    placed(mask, d)
}

/// No NaN; one at every bin; one at the last bin alone, which is open while the activity is infinite;
/// and frames that the rule of depth and activity makes ones, whatever else is odd.
fn frames(last_log: f32) -> Vec<(Frame, f32)> {
    let frame = |activity, windows: &[[f32; 3]]| {
        let mut frame = Frame::empty();
        frame.activity = activity;
        frame.windows[..windows.len()].copy_from_slice(windows);
        frame
    };
    let ordinary = [[8.5, 0.5, 0.75], [9.25, 1.0, 0.3], [8.0, 0.125, 1.0]];
    let one = [[last_log, 1e-4, 1.0]];
    let odd = [[f32::NAN, f32::INFINITY, f32::NEG_INFINITY]; 192];
    vec![
        (frame(0.75, &ordinary), 12.5),
        (frame(1.0, &odd), 60.0),
        (frame(f32::NAN, &ordinary), 12.5),
        (frame(1.0, &ordinary), f32::NAN),
        (frame(f32::INFINITY, &one), 60.0),
        (frame(f32::NEG_INFINITY, &one), 60.0),
        (frame(f32::INFINITY, &[]), 1e-45),
        (frame(-1.0, &ordinary), 12.5),
        (frame(0.0, &ordinary), f32::NAN),
        (frame(f32::NAN, &ordinary), -0.0),
        (frame(f32::NAN, &odd), f32::NEG_INFINITY),
    ]
}

/// Every count at a limit, with logs that pass and that don't, scratch of the right length and not, each
/// of `frames`, and rooms that are exact, a byte short, and ended before the place: of two reasons for
/// a refusal the first in order must be given.
pub fn edges() -> Vec<Case> {
    let mut cases = Vec::new();
    for bins in [0, 1, 2, 129, 1_025, BINS, BINS + 1] {
        let sorted: Vec<f32> = (0..bins).map(|bin| 8.0 + bin as f32 / 1_024.0).collect();
        let mut unsorted = sorted.clone();
        if let [_, .., last] = unsorted.as_mut_slice() {
            *last = f32::NAN;
        }
        let size = HEAD + 2 * bins;
        let last_log = sorted.last().copied().unwrap_or_default();
        for logs in [&sorted, &unsorted] {
            for scratch in [bins, bins + 1] {
                for (frame, depth_db) in frames(last_log) {
                    for (room, at) in [
                        (size, 0),
                        (size - 1, 0),
                        (size + 7, 7),
                        (size + 6, 7),
                        (size, size as u64 + 1),
                        (size, u64::MAX - size as u64 + 1),
                        (0, 0),
                    ] {
                        cases.push(Case {
                            sample: 0x0102_0304_0506_0708,
                            frame: frame.clone(),
                            depth_db,
                            logs: logs.clone(),
                            scratch: vec![7.5; scratch],
                            room,
                            at,
                        });
                    }
                }
            }
        }
    }
    cases
}

/// A single bin that is attenuated by half a tenth more than each tenth, and by the floats beside that.
pub fn ties() -> impl Iterator<Item = Case> {
    let size = HEAD + 2;
    let all = (0..600).flat_map(|n| (0..3).map(move |beside| tie(n, beside)));
    all.map(move |depth_db| {
        let mut frame = Frame::empty();
        frame.activity = 1.0;
        Case {
            sample: u64::MAX,
            frame,
            depth_db,
            logs: vec![0.0],
            scratch: vec![7.5],
            room: size,
            at: 0,
        }
    })
}

/// Frames that the original's engine made, a few of each kind of script, over bins of its rate.
pub fn played(base: u64) -> Vec<Case> {
    let mut d = Draws::new(base, "records of scripts");
    let mut cases = Vec::new();
    for kind in KINDS {
        let script = script(base, kind);
        let ends = ends(0, &script);
        let some = up_to(PLAYED, &ends).last().map_or(0, |end| end.bytes);
        let Ok((Field::Rate(rate), _)) = read_field(&script, true) else {
            continue;
        };
        let mut frames = Vec::new();
        let _ = run(0, &script[..some], |_, answer, engine: &Engine| {
            if let Answer::Framed(frame) = answer {
                frames.push((engine.elapsed_samples(), (**frame).clone()));
            }
        });
        let step = frames.len() / 8 + 1;
        for (sample, frame) in frames.into_iter().step_by(step) {
            let logs = open::bin_table(rate, d.among(1, 3_000) as usize);
            let mask = masks::Case {
                frame,
                depth_db: d.between(0.0, 66.0),
                scratch: vec![7.5; logs.len()],
                output: Vec::new(),
                logs,
            };
            let case = placed(mask, &mut d);
            cases.push(Case { sample, ..case });
        }
    }
    cases
}

/// A run for these has so many steps.
const PLAYED: u64 = 100_000;

/// The edges of the mask call, in drawn rooms.
pub fn mask_edges(base: u64) -> Vec<Case> {
    let mut d = Draws::new(base, "rooms of masks");
    let edges = lent::edges(base).into_iter();
    edges.map(|mask| placed(mask, &mut d)).collect()
}

/// A number for what the reading answers to a frame, with what it leaves.
fn written(c: &Case) -> u64 {
    let (mut out, mut at) = (vec![UNTOUCHED; c.room], c.at);
    let (mut scratch, mut sum) = (c.scratch.clone(), Digest::default());
    let answer = write(
        c.sample,
        &c.frame,
        c.depth_db,
        &c.logs,
        &mut scratch,
        &mut out,
        &mut at,
    );
    sum.word(answer.into());
    sum.word(at);
    scratch.iter().for_each(|x| sum.word(bits32(*x).into()));
    sum.word(Digest::text(&out));
    sum.0
}

fn found(lent: &Lent) -> u64 {
    let mut sum = Digest::default();
    match read(&lent.bytes, lent.places) {
        Read::End => sum.word(255),
        Read::Refused(number) => sum.word(number.into()),
        Read::Found {
            sample,
            entries,
            bytes,
        } => {
            sum.word(sample);
            sum.word(bytes as u64);
            entries.iter().for_each(|e| sum.word((*e).into()));
        }
    }
    sum.0
}

/// A line for each frame, edges first, and one for all that is read.
pub fn lines(seed: u64, count: usize) -> String {
    let mut d = Draws::new(seed, "records");
    let mut text = String::new();
    let drawn = (0..count).map(|_| case(&mut d));
    for c in edges().into_iter().chain(ties()).chain(drawn) {
        writeln!(text, "record {:016x}", written(&c)).unwrap();
    }
    let mut sum = Digest::default();
    nearly(seed).iter().for_each(|lent| sum.word(found(lent)));
    writeln!(text, "read {:016x}", sum.0).unwrap();
    text
}
