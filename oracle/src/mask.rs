//! 01's mask call and bin table around the original ones: refusals first, then 01's "differs".
use crate::engine::Frame;
use crate::original::open;
use crate::runner::rate_passes;

/// Refusals 5 and 6, then the original's gains. 01 differs where bin 0's log is NaN or above
/// bin 1's: the answer is defined over bins 1 up. Bin 0 is never opened, so a log below every
/// other one gives the original's search a sorted list and leaves the rest of its answer alone.
pub fn gains(
    frame: &Frame,
    depth_db: f32,
    logs: &[f32],
    scratch: &mut [f32],
    output: &mut [f32],
) -> u32 {
    if output.len() != scratch.len() || output.len() != logs.len() {
        return 5;
    }
    if !logs_pass(logs) {
        return 6;
    }
    open::gains(frame, depth_db, &sorted(logs), scratch, output);
    0
}

/// What the original hands to `db_to_gain` at each bin, 0 where it gives the ones, of logs that pass.
pub fn decibels(frame: &Frame, depth_db: f32, logs: &[f32], scratch: &mut [f32]) -> Vec<f32> {
    let mut output = vec![f32::NAN; logs.len()];
    open::decibels(frame, depth_db, &sorted(logs), scratch, &mut output);
    output
}

fn sorted(logs: &[f32]) -> Vec<f32> {
    let mut sorted = logs.to_vec();
    if let Some(first) = sorted.first_mut() {
        *first = f32::NEG_INFINITY;
    }
    sorted
}

/// From bin 1 on every log is finite, and from bin 2 on none is less than the one before it.
pub fn logs_pass(logs: &[f32]) -> bool {
    let from_one = logs.get(1..).unwrap_or_default();
    from_one.iter().all(|log| log.is_finite()) && from_one.windows(2).all(|pair| pair[0] <= pair[1])
}

/// Whether the original itself answers as 01 does: its search meets a sorted list.
pub fn original_agrees(logs: &[f32]) -> bool {
    logs.len() < 2 || logs[0] <= logs[1]
}

/// The bin table: 1, 3, 5, in that order.
pub fn bin_table(rate: f32, fft_size: u64, table: &mut [f32]) -> u32 {
    if !rate_passes(rate) {
        return 1;
    }
    if !(1..=16_384).contains(&fft_size) {
        return 3;
    }
    let logs = open::bin_table(rate, fft_size as usize);
    if table.len() != logs.len() {
        return 5;
    }
    table.copy_from_slice(&logs);
    0
}
