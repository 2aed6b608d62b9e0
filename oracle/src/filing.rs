//! The port's mask files of whole scripts, `rk_masks` in `libhost.a`, held against the original's frames
//! put through the reading's records.
use crate::compare::Sum;
use crate::draws::Draws;
use crate::ends::{ends, up_to};
use crate::gen::script::Script;
use crate::gen::values::settings;
use crate::gen::{script, KINDS};
use crate::original::Engine;
use crate::part::Answered;
use crate::recording::untouched;
use crate::records::{file, HEAD};
use crate::runner::SCRIPT_LIMIT;
use std::io::{self, Write};

/// Whether the archives have the call.
const FILED: bool = cfg!(filed);

#[cfg(filed)]
extern "C" {
    fn rk_masks(
        script: *const u8,
        length: usize,
        fft_size: usize,
        depth_db: f32,
        out: *mut u8,
        room: usize,
        at: *mut u64,
    ) -> u32;
}

#[cfg(not(filed))]
unsafe fn rk_masks(
    _: *const u8,
    _: usize,
    _: usize,
    _: f32,
    _: *mut u8,
    _: usize,
    _: *mut u64,
) -> u32 {
    unreachable!("nothing is called where the archive is absent")
}

pub fn compare<W: Write>(count: u64, base: u64, limit: u64, sum: &mut Sum<W>) -> io::Result<()> {
    let mut files = Answered::new("mask files of scripts by rk_masks", FILED);
    if FILED {
        compare_bad(&mut files);
        compare_files(count, base, limit, &mut files);
    }
    files.tell(&[0, 1, 3, 8, 10, 11, 12, 13, 14, 15, 16, 18], sum)
}

/// A script with frames that goes bad in each way, behind them or before: with a NaN for a depth it is
/// what comes first that is told, and any of it before a want of room.
fn compare_bad(files: &mut Answered) {
    let mut frames = Script::default();
    frames.configure(&settings());
    for _ in 0..3 {
        frames.advance(2_000).frame(10.0, 0.04);
    }
    let rate = |rate| Script::at(rate).0;
    let bad: [&[u8]; 7] = [
        &[],
        &[99, 0, 0],
        &[8, 0],
        &[8, 0, 3],
        &[8, 0, 4],
        &[10, 0, 1, 2],
        &rate(8_000.0),
    ];
    for rate in [rate(48_000.0), rate(1.0), Vec::new()] {
        for bad in bad {
            for rest in [[&frames.0, bad].concat(), [bad, &frames.0].concat()] {
                let script = [rate.as_slice(), &rest].concat();
                let mut filed = Filed {
                    name: format!("{script:?}"),
                    script,
                    files,
                };
                for depth_db in [0.0, 12.5, f32::NAN] {
                    for room in [1_000, 2] {
                        filed.add(64, depth_db, room, 2);
                    }
                }
            }
        }
    }
}

/// A large size has so few of a script's steps, a small one so many.
const FEW: u64 = 10_000;
const MANY: u64 = 100_000;

/// The mask files of generated scripts, of every kind in turn: with room, exact and a byte short, at any
/// place, with a depth that is no number, at a size that is refused, and of a script above
/// its limit.
fn compare_files(count: u64, base: u64, limit: u64, files: &mut Answered) {
    for n in 0..count {
        let kind = &KINDS[(n % KINDS.len() as u64) as usize];
        let seed = base.wrapping_add(n / KINDS.len() as u64);
        let mut d = Draws::new(base.wrapping_add(n), "mask files");
        let (size, steps) = match d.below(8) {
            0 => (d.pick(&[16_384, 16_383, 4_096]), FEW),
            1 => (d.pick(&[1, 2, 3]), MANY),
            _ => (u64::from(d.among(1, 600)), MANY),
        };
        let depth_db = match d.below(3) {
            0 => d.pick(&[0.0, 1e-45, 0.25, 12.5, 60.0, 1e9, -1.0, f32::INFINITY]),
            _ => d.between(0.0, 70.0),
        };
        let whole = script(seed, kind);
        let all = ends(0, &whole);
        let ends = up_to(steps.min(limit), &all);
        let some = match ends.last() {
            _ if ends.len() == all.len() => whole.len(),
            last => last.map_or(0, |end| end.bytes),
        };
        let mut filed = Filed {
            name: format!("gen {seed} {}, first {some} bytes", kind.name),
            script: whole[..some].to_vec(),
            files,
        };
        let frames = ends.iter().filter(|end| end.tag == 9).count() as u64;
        let (before, more) = (d.below(40), d.below(40));
        let enough = before + frames * (HEAD as u64 + 2 * (size / 2 + 1));
        let filled = filed.add(size, depth_db, enough + more, before);
        filed.add(size, depth_db, filled, before);
        filed.add(size, depth_db, filled.saturating_sub(1), before);
        filed.add(size, depth_db, 50, d.word() >> d.below(64));
        filed.add(size, f32::NAN, enough, before);
        filed.add(size, f32::NAN, before, before);
        filed.add(d.pick(&[0, 16_385, u64::MAX]), f32::NAN, 100, 0);
        filed.name += ", again and again";
        filed.script = whole.into_iter().cycle().take(SCRIPT_LIMIT + 1).collect();
        filed.add(size, f32::NAN, 0, 1);
        filed.add(0, f32::NAN, 0, 1);
    }
}

struct Filed<'a> {
    name: String,
    script: Vec<u8>,
    files: &'a mut Answered,
}

impl Filed<'_> {
    /// A case for the answer, the place and every byte. It answers how many bytes the buffer then holds.
    fn add(&mut self, size: u64, depth_db: f32, room: u64, before: u64) -> u64 {
        let room = room as usize;
        let (mut want_out, mut got_out) = (untouched(room), untouched(room));
        let (mut want_at, mut got_at) = (before, before);
        let out = &mut want_out[..room];
        let want = file::<Engine>(&self.script, size, depth_db, out, &mut want_at);
        // The slices are apart, and each pointer goes with its own length.
        let got = unsafe {
            rk_masks(
                self.script.as_ptr(),
                self.script.len(),
                size as usize,
                depth_db,
                got_out.as_mut_ptr(),
                room,
                &mut got_at,
            )
        };
        let case = format_args!(
            "{}, size {size}, depth {:08x}, at {before} of {room}",
            self.name,
            depth_db.to_bits()
        );
        let same = got == want && got_at == want_at && got_out == want_out;
        self.files.add(case, want.into(), same);
        want_at
    }
}
