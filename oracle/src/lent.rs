//! The port's calls that take a frame or fill lent floats, held against the reading of 01 and the
//! original: the answer, and every float of every slice afterwards.
use crate::draws::Draws;
use crate::engine::Frame;
use crate::gen::values::odd;
use crate::mask;
use crate::masks::{bins_case, case, frame, Case};
use crate::original::open;
use crate::value::bits32;

pub const GAINS: u64 = 4_000;
pub const TABLES: u64 = 4_000;
pub const ATTENUATIONS: u64 = 20_000;

#[cfg(probed)]
extern "C" {
    fn rk_probe_gains(
        flat: *const f32,
        flat_len: usize,
        activity: f32,
        depth_db: f32,
        logs: *const f32,
        logs_len: usize,
        scratch: *mut f32,
        scratch_len: usize,
        output: *mut f32,
        output_len: usize,
    ) -> u64;
    fn rk_probe_bin_table(rate: f32, fft_size: u64, table: *mut f32, table_len: usize) -> u64;
    fn rk_probe_attenuation_db(
        flat: *const f32,
        flat_len: usize,
        activity: f32,
        frequency_hz: f32,
        depth_db: f32,
    ) -> f32;
}

#[cfg(not(probed))]
#[allow(clippy::too_many_arguments)]
mod absent {
    const NONE: &str = "nothing is called where the archive is absent";
    type P = *const f32;
    type M = *mut f32;
    pub unsafe fn rk_probe_gains(
        _: P,
        _: usize,
        _: f32,
        _: f32,
        _: P,
        _: usize,
        _: M,
        _: usize,
        _: M,
        _: usize,
    ) -> u64 {
        unreachable!("{NONE}")
    }
    pub unsafe fn rk_probe_bin_table(_: f32, _: u64, _: M, _: usize) -> u64 {
        unreachable!("{NONE}")
    }
    pub unsafe fn rk_probe_attenuation_db(_: P, _: usize, _: f32, _: f32, _: f32) -> f32 {
        unreachable!("{NONE}")
    }
}
#[cfg(not(probed))]
use absent::*;

pub fn flat(frame: &Frame) -> Vec<f32> {
    frame.windows.concat()
}

fn gains(c: &Case, scratch: &mut [f32], output: &mut [f32]) -> u64 {
    let windows = flat(&c.frame);
    // The slices are apart, and each pointer goes with its own length.
    unsafe {
        rk_probe_gains(
            windows.as_ptr(),
            windows.len(),
            c.frame.activity,
            c.depth_db,
            c.logs.as_ptr(),
            c.logs.len(),
            scratch.as_mut_ptr(),
            scratch.len(),
            output.as_mut_ptr(),
            output.len(),
        )
    }
}

pub fn bits(floats: &[f32]) -> Vec<u32> {
    floats.iter().map(|x| bits32(*x)).collect()
}

fn differs(name: &str, at: u64, want: &[Vec<u32>], got: &[Vec<u32>]) -> Option<String> {
    (want != got).then(|| format!("{name} {at}"))
}

/// Lengths 0, 1, 2 and 8,193; logs equal, unsorted, not finite, and a bin 0 above all others; each
/// with the depths and activities at which a rule begins, and a window of every odd kind.
pub fn edges(base: u64) -> Vec<Case> {
    let table = open::bin_table(48_000.0, 16_384);
    let logs = [
        vec![],
        vec![f32::NAN],
        vec![0.0, 3.0],
        vec![9.0, 3.0],
        vec![9.0, f32::NAN],
        vec![f32::NAN, 8.0, 8.0, 8.0, 10.0, 12.0, 12.0],
        vec![99.0, 8.0, 9.0, 10.0, 12.0, 14.0, 16.0],
        vec![0.0, 8.0, 9.0, 8.999_999, 12.0],
        vec![0.0, 8.0, 9.0, f32::INFINITY],
        vec![0.0, f32::NEG_INFINITY, 9.0, 10.0],
        table,
    ];
    let mut d = Draws::new(base, "edges of the mask");
    let mut cases = Vec::new();
    for logs in logs {
        for depth_db in [0.0, -0.0, f32::NAN, f32::INFINITY, 1e-45, 24.0, 60.0, 61.0] {
            for activity in [0.0, -0.0, f32::NAN, -1.0, 1.0, f32::INFINITY] {
                let mut frame = Frame::empty();
                frame.activity = activity;
                frame.windows[191] = [10.0, 2.0, 1.0];
                for window in frame.windows.iter_mut().take(40) {
                    *window = [odd(&mut d), odd(&mut d), odd(&mut d)];
                }
                cases.push(Case {
                    frame,
                    depth_db,
                    scratch: vec![7.5; logs.len()],
                    output: vec![-3.0; logs.len()],
                    logs: logs.clone(),
                });
            }
        }
    }
    cases
}

/// Mask calls at which the port differs, and how many there were.
pub fn gains_differ(base: u64) -> (u64, Vec<String>) {
    let mut d = Draws::new(base, "gains");
    let mut cases = edges(base);
    cases.extend((0..GAINS).map(|_| case(&mut d)));
    let found = cases.iter().enumerate().filter_map(|(at, c)| {
        let (mut scratch, mut output) = (c.scratch.clone(), c.output.clone());
        let want = mask::gains(&c.frame, c.depth_db, &c.logs, &mut scratch, &mut output);
        let want = [vec![want], bits(&scratch), bits(&output)];
        let (mut scratch, mut output) = (c.scratch.clone(), c.output.clone());
        let got = gains(c, &mut scratch, &mut output);
        let got = [vec![got as u32], bits(&scratch), bits(&output)];
        differs("mask call", at as u64, &want, &got)
    });
    (cases.len() as u64, found.collect())
}

/// Bin tables at which the port differs.
pub fn tables_differ(base: u64) -> Vec<String> {
    let mut d = Draws::new(base, "tables");
    let found = (0..TABLES).filter_map(|at| {
        let (rate, size, length) = bins_case(&mut d);
        let (mut table, mut ours) = (vec![9.25; length], vec![9.25; length]);
        let want = mask::bin_table(rate, size, &mut table);
        let got = unsafe { rk_probe_bin_table(rate, size, ours.as_mut_ptr(), length) };
        let (want, got) = ([vec![want], bits(&table)], [vec![got as u32], bits(&ours)]);
        differs("bin table", at, &want, &got)
    });
    found.collect()
}

/// Attenuations at which the port differs.
pub fn attenuations_differ(base: u64) -> Vec<String> {
    let mut d = Draws::new(base, "attenuations");
    let found = (0..ATTENUATIONS).filter_map(|at| {
        let frame = frame(&mut d, &[]);
        let (hz, depth) = match d.below(3) {
            0 => (odd(&mut d), odd(&mut d)),
            _ => (d.between(0.0, 9_000.0), d.between(-1.0, 70.0)),
        };
        let want = open::attenuation_db(&frame, hz, depth);
        let windows = flat(&frame);
        let (pointer, length) = (windows.as_ptr(), windows.len());
        let got = unsafe { rk_probe_attenuation_db(pointer, length, frame.activity, hz, depth) };
        differs("attenuation", at, &[bits(&[want])], &[bits(&[got])])
    });
    found.collect()
}
