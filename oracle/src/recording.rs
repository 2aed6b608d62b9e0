//! The port's records of mask files held against the reading of order 5: tenths, table, frames written
//! and bytes read.
use crate::compare::Sum;
use crate::draws::Draws;
use crate::lent::{bits, flat};
use crate::part::{Answered, Part};
use crate::record_bytes::{damaged, nearly, Lent};
use crate::recorded::{self, Case};
use crate::records::{read, write, Read};
use crate::scripts::UNTOUCHED;
use crate::tenths::{is_tenth, table, tenth, LAST};
use std::io::{self, Write};

/// So many floats are taken to their tenth, behind the edges.
const TENTHS: usize = 1_000_000;

/// So many frames are written, and so many damaged records read, behind the edges.
const FRAMES: usize = 20_000;
const DAMAGED: usize = 200_000;

/// So much stands behind what is lent, and must be left alone.
pub const BEHIND: usize = 20;

/// What lent numbers begin as.
const UNTOLD: u64 = 0xa5a5_a5a5_a5a5_a5a5;

/// The end of a file among the numbers of a read.
const END: u64 = 255;

/// Whether the archives have the calls.
const RECORDED: bool = cfg!(recorded);

#[cfg(recorded)]
extern "C" {
    fn rk_probe_tenths(attenuation_db: f32) -> u64;
    fn rk_probe_entry(n: u64) -> u64;
    fn rk_probe_write_record(
        sample: u64,
        flat: *const f32,
        flat_len: usize,
        activity: f32,
        depth_db: f32,
        logs: *const f32,
        logs_len: usize,
        scratch: *mut f32,
        scratch_len: usize,
        out: *mut u8,
        room: usize,
        at: *mut u64,
    ) -> u64;
    fn rk_probe_read_record(
        bytes: *const u8,
        length: usize,
        entries: *mut u16,
        places: usize,
        sample: *mut u64,
        count: *mut u64,
        taken: *mut u64,
    ) -> u64;
}

#[cfg(not(recorded))]
#[allow(clippy::too_many_arguments)]
mod absent {
    const NONE: &str = "nothing is called where the archive is absent";
    type F = *const f32;
    type M = *mut f32;
    type U = *mut u64;
    pub unsafe fn rk_probe_tenths(_: f32) -> u64 {
        unreachable!("{NONE}")
    }
    pub unsafe fn rk_probe_entry(_: u64) -> u64 {
        unreachable!("{NONE}")
    }
    pub unsafe fn rk_probe_write_record(
        _: u64,
        _: F,
        _: usize,
        _: f32,
        _: f32,
        _: F,
        _: usize,
        _: M,
        _: usize,
        _: *mut u8,
        _: usize,
        _: U,
    ) -> u64 {
        unreachable!("{NONE}")
    }
    pub unsafe fn rk_probe_read_record(
        _: *const u8,
        _: usize,
        _: *mut u16,
        _: usize,
        _: U,
        _: U,
        _: U,
    ) -> u64 {
        unreachable!("{NONE}")
    }
}
#[cfg(not(recorded))]
use absent::*;

/// Half tenths and whole ones with the floats beside them, the ends of the range, and the odd ones.
fn tenth_edges() -> Vec<f32> {
    let mut edges = Vec::new();
    for n in 0..=1_202 {
        let near = (n as f32 / 20.0).to_bits();
        edges.extend((near.saturating_sub(3)..=near + 3).map(f32::from_bits));
    }
    for power in 0..=254 {
        let two = f32::from_bits(power << 23).to_bits();
        edges.extend((two.saturating_sub(1)..=two + 1).map(f32::from_bits));
    }
    edges.extend([60.04, 60.05, 59.949_997, 59.95, 1e-45, f32::MAX]);
    let negative: Vec<f32> = edges.iter().map(|x| -x).collect();
    edges.extend(negative);
    edges.extend([f32::NAN, -f32::NAN, f32::INFINITY, f32::NEG_INFINITY]);
    edges
}

/// What the reading itself fails of order 5, and how many checks there were: the table's rule, and each
/// tenth by its two sides.
pub fn failing() -> (usize, Vec<String>) {
    let mut failing = crate::tenths::failing();
    let edges = tenth_edges();
    for a in edges.iter().filter(|a| !a.is_nan()) {
        if !tenth(*a).is_some_and(|n| is_tenth(n, *a)) {
            failing.push(format!("the tenth of {a}"));
        }
    }
    (table().len() + 1 + edges.len(), failing)
}

pub fn compare<W: Write>(base: u64, sum: &mut Sum<W>) -> io::Result<()> {
    let mut numbers = Part::new("tenths of a decibel by rk_probe_tenths".into(), RECORDED);
    let mut entries = Part::new("entries of the table by rk_probe_entry".into(), RECORDED);
    let mut written = Answered::new("records written by rk_probe_write_record", RECORDED);
    let mut back = Answered::new("records read back by rk_probe_read_record", RECORDED);
    let mut damaged = Answered::new("damaged records read by rk_probe_read_record", RECORDED);
    if RECORDED {
        compare_numbers(base, &mut numbers, &mut entries);
        compare_frames(base, &mut written, &mut back);
        compare_damaged(base, &mut damaged);
    }
    sum.counted(&numbers)?;
    sum.counted(&entries)?;
    written.tell(&[0, 5, 6, 13, 18, 19], sum)?;
    back.tell(&[0, 13], sum)?;
    damaged.tell(&[0, 13, 19, END], sum)
}

fn compare_numbers(base: u64, numbers: &mut Part, entries: &mut Part) {
    let mut d = Draws::new(base, "tenths");
    // One in two lies in the range, where the tenth moves.
    let drawn = (0..TENTHS).map(|_| match d.flag() {
        true => f32::from_bits(d.word() as u32),
        false => d.between(0.0, 60.5),
    });
    for a in tenth_edges().into_iter().chain(drawn) {
        // A NaN is refused by every other call; alone the port answers 0.
        let want = u64::from(tenth(a).unwrap_or(0));
        let case = format_args!("{:08x}", a.to_bits());
        numbers.add(case, unsafe { rk_probe_tenths(a) } == want);
    }
    let past = (0..64).map(|power| u64::from(LAST) + (1 << power));
    for n in (0..=u64::from(LAST)).chain(past).chain([u64::MAX]) {
        let want = table().get(n as usize).copied().unwrap_or(0);
        let got = unsafe { rk_probe_entry(n) };
        entries.add(format_args!("entry {n}"), got == want.into());
    }
}

/// The port's call, with the lent bytes and the place behind them.
fn port_write(c: &Case, scratch: &mut [f32], out: &mut [u8], at: &mut u64) -> u64 {
    let windows = flat(&c.frame);
    // The slices are apart, and each pointer goes with its own length.
    unsafe {
        rk_probe_write_record(
            c.sample,
            windows.as_ptr(),
            windows.len(),
            c.frame.activity,
            c.depth_db,
            c.logs.as_ptr(),
            c.logs.len(),
            scratch.as_mut_ptr(),
            scratch.len(),
            out.as_mut_ptr(),
            out.len(),
            at,
        )
    }
}

fn compare_frames(base: u64, written: &mut Answered, back: &mut Answered) {
    let mut d = Draws::new(base, "records");
    let edges = recorded::edges().into_iter();
    let edges = edges.chain(recorded::ties());
    let edges = edges.chain(recorded::mask_edges(base));
    let edges = edges.chain(recorded::played(base));
    let cases = edges.chain((0..FRAMES).map(|_| recorded::case(&mut d)));
    for (n, c) in cases.enumerate() {
        let (mut want_out, mut got_out) = (untouched(c.room), untouched(c.room));
        let (mut want_scratch, mut got_scratch) = (behind(&c.scratch), behind(&c.scratch));
        let (mut want_at, mut got_at) = (c.at, c.at);
        let want = write(
            c.sample,
            &c.frame,
            c.depth_db,
            &c.logs,
            &mut want_scratch[..c.scratch.len()],
            &mut want_out[..c.room],
            &mut want_at,
        );
        let (scratch, out) = (&mut got_scratch[..c.scratch.len()], &mut got_out[..c.room]);
        let got = port_write(&c, scratch, out, &mut got_at);
        let same = got == u64::from(want)
            && got_at == want_at
            && bits(&got_scratch) == bits(&want_scratch)
            && got_out == want_out;
        let bins = c.logs.len();
        let case = format_args!("frame {n} of {bins} bins at {} of {}", c.at, c.room);
        written.add(case, want.into(), same);
        if got == 0 && same {
            let bytes = &got_out[c.at as usize..];
            for places in [bins, bins + 3, bins - 1] {
                let case = format_args!("frame {n} of {bins} bins, for {places} places");
                let (want, same) = read_same(bytes, places);
                back.add(case, want, same);
            }
        }
    }
}

pub fn untouched(room: usize) -> Vec<u8> {
    vec![UNTOUCHED; room + BEHIND]
}

fn behind(scratch: &[f32]) -> Vec<f32> {
    [scratch, &[-3.0; BEHIND]].concat()
}

/// What the reading answers to these bytes, and whether the port does: the answer, the entries with
/// those behind them, and the three numbers.
fn read_same(bytes: &[u8], places: usize) -> (u64, bool) {
    let mut want_entries = vec![UNTOLD as u16; places + BEHIND];
    let mut got_entries = want_entries.clone();
    let want = match read(bytes, places) {
        Read::End => [END, UNTOLD, UNTOLD, UNTOLD],
        Read::Refused(number) => [number.into(), UNTOLD, UNTOLD, UNTOLD],
        Read::Found {
            sample,
            entries,
            bytes,
        } => {
            want_entries[..entries.len()].copy_from_slice(&entries);
            [0, sample, entries.len() as u64, bytes as u64]
        }
    };
    let (mut sample, mut count, mut taken) = (UNTOLD, UNTOLD, UNTOLD);
    // The slices and the numbers are apart, and each pointer goes with its own length.
    let got = unsafe {
        rk_probe_read_record(
            bytes.as_ptr(),
            bytes.len(),
            got_entries.as_mut_ptr(),
            places,
            &mut sample,
            &mut count,
            &mut taken,
        )
    };
    let same = [got, sample, count, taken] == want && got_entries == want_entries;
    (want[0], same)
}

fn compare_damaged(base: u64, part: &mut Answered) {
    let mut d = Draws::new(base, "damaged records");
    let drawn = (0..DAMAGED).map(|_| damaged(&mut d));
    for (n, lent) in nearly(base).into_iter().chain(drawn).enumerate() {
        let Lent { bytes, places } = lent;
        let case = format_args!("bytes {n}, {} of them for {places} places", bytes.len());
        let (want, same) = read_same(&bytes, places);
        part.add(case, want, same);
    }
}
