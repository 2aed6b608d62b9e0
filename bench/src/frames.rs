//! Frames, bins and the time of a call on them, for the mask and for records.
use crate::particles::{Frame, Window};
use std::time::Instant;

const PASSES: usize = 400;

/// Microseconds of the quickest pass.
pub fn least(mut pass: impl FnMut()) -> f64 {
    let mut best = f64::MAX;
    for _ in 0..PASSES {
        let start = Instant::now();
        pass();
        best = best.min(start.elapsed().as_nanos() as f64 / 1000.0);
    }
    best
}

/// Windows as a frame has them: centres from 40 Hz to 16.7 kHz, radii from 0.06 to 1.25 octaves.
pub fn frame(windows: usize) -> Frame {
    let mut state = 7u64;
    let mut unit = || {
        state = state
            .wrapping_mul(6364136223846793005)
            .wrapping_add(1442695040888963407);
        ((state >> 40) as f32) / 16777216.0
    };
    let mut frame = Frame {
        activity: 0.75,
        ..Frame::default()
    };
    for window in frame.windows.iter_mut().take(windows) {
        *window = Window {
            center_log2_hz: 5.3 + 8.7 * unit(),
            radius_octaves: 0.06 * (1.25f32 / 0.06).powf(unit()),
            amplitude: 0.05 + 0.95 * unit(),
        };
    }
    frame
}

/// A frame's windows as plain floats, three for each.
pub fn flat(frame: &Frame) -> Vec<f32> {
    let floats = |w: &Window| [w.center_log2_hz, w.radius_octaves, w.amplitude];
    frame.windows.iter().flat_map(floats).collect()
}

/// The logs of so many bins at 48 kHz.
pub fn logs(bins: usize) -> Vec<f32> {
    let bin_hz = 48_000.0 / (2 * (bins - 1)) as f32;
    let log = |bin| match bin {
        0 => 0.0,
        _ => (bin as f32 * bin_hz).log2(),
    };
    (0..bins).map(log).collect()
}
