//! What the programs here share: the proved functions, linked; the original; the reference;
//! distances.
#[cfg(original)]
pub mod calls;
pub mod events;
#[cfg(original)]
pub mod frames;
pub mod precise;
pub mod reference;
pub mod tables;

mod linked {
    extern "C" {
        pub fn rk_log2(x: f32) -> f32;
        pub fn rk_exp2(x: f32) -> f32;
        pub fn rk_exp(x: f32) -> f32;
        pub fn rk_exp64(x: f64) -> f64;
        pub fn rk_pow8(x: f32) -> f32;
        pub fn rk_pow10(x: f32) -> f32;
        pub fn rk_sqrt(x: f32) -> f32;
        pub fn rk_probe_rem_euclid64(x: f64, m: f64) -> f64;
        pub fn rk_probe_active_counts(events: u64, asked: bool) -> u64;
        pub fn rk_script(script: *const u8, length: usize, out: *mut u8, room: usize) -> u32;
        pub fn rk_write_rate(rate: f32, out: *mut u8, room: usize, at: *mut u64) -> u32;
        pub fn rk_write_configure(
            enabled: bool,
            shape: u8,
            direction: u8,
            rate_hz: f32,
            size_octaves: f32,
            phase: f32,
            scheduled: bool,
            sync: bool,
            hop_samples: usize,
            partials: usize,
            partial_rolloff_db: f32,
            attack_ms: f32,
            release_ms: f32,
            out: *mut u8,
            room: usize,
            at: *mut u64,
        ) -> u32;
        pub fn rk_write_source(
            slot: u16,
            frequency_hz: f32,
            strength: f32,
            eligible: bool,
            out: *mut u8,
            room: usize,
            at: *mut u64,
        ) -> u32;
        pub fn rk_write_retire(slot: u16, out: *mut u8, room: usize, at: *mut u64) -> u32;
        pub fn rk_write_release(slot: u16, out: *mut u8, room: usize, at: *mut u64) -> u32;
        pub fn rk_write_trigger(slot: u16, out: *mut u8, room: usize, at: *mut u64) -> u32;
        pub fn rk_write_seek(cycles: f64, out: *mut u8, room: usize, at: *mut u64) -> u32;
        pub fn rk_write_advance(samples: u32, out: *mut u8, room: usize, at: *mut u64) -> u32;
        pub fn rk_write_frame(
            bin_hz: f32,
            elapsed: f32,
            out: *mut u8,
            room: usize,
            at: *mut u64,
        ) -> u32;
        pub fn rk_write_note_input(present: bool, out: *mut u8, room: usize, at: *mut u64) -> u32;
        pub fn rk_write_reset(out: *mut u8, room: usize, at: *mut u64) -> u32;
        pub fn rk_write_reserve(out: *mut u8, room: usize, at: *mut u64) -> u32;
        pub fn rk_write_reserved_trigger(
            slot: u16,
            index: u64,
            out: *mut u8,
            room: usize,
            at: *mut u64,
        ) -> u32;
        pub fn rk_probe_gains(
            flat: *const f32,
            flat_len: usize,
            activity: f32,
            depth_db: f32,
            logs: *const f32,
            logs_len: usize,
            scratch: *mut f32,
            scratch_len: usize,
            output: *mut f32,
            output_len: usize,
        ) -> u64;
        pub fn rk_probe_write_record(
            sample: u64,
            flat: *const f32,
            flat_len: usize,
            activity: f32,
            depth_db: f32,
            logs: *const f32,
            logs_len: usize,
            scratch: *mut f32,
            scratch_len: usize,
            out: *mut u8,
            room: usize,
            at: *mut u64,
        ) -> u64;
        pub fn rk_probe_read_record(
            bytes: *const u8,
            length: usize,
            entries: *mut u16,
            places: usize,
            sample: *mut u64,
            count: *mut u64,
            taken: *mut u64,
        ) -> u64;
    }
}

#[cfg(original)]
mod oiko_dsp {
    /// 002's, as it stands there.
    #[inline]
    pub fn db_to_gain(db: f32) -> f32 {
        10.0_f32.powf(db / 20.0)
    }
}

/// What the original's mask reads of 001's workspace.
#[cfg(original)]
pub struct MaskWorkspace {
    pub bin_log2_hz: Vec<f32>,
}

/// The original, with std's functions.
#[cfg(original)]
#[allow(dead_code)]
pub mod particles {
    include!(concat!(env!("OUT_DIR"), "/particles.rs"));
}

/// The proved engine, run by a script. It answers 01's number for any lengths.
pub fn script(script: &[u8], out: &mut [u8]) -> u32 {
    // The slices are apart, and each pointer goes with its own length.
    unsafe { linked::rk_script(script.as_ptr(), script.len(), out.as_mut_ptr(), out.len()) }
}

/// The proved `active_count` after each of so many triggers, if it is asked for: the sum of its answers.
pub fn active_counts(events: u64, asked: bool) -> u64 {
    // It takes any numbers and has no state.
    unsafe { linked::rk_probe_active_counts(events, asked) }
}

/// The proved mask call. It answers 01's number for any lengths.
pub fn gains(
    flat: &[f32],
    activity: f32,
    depth_db: f32,
    logs: &[f32],
    scratch: &mut [f32],
    output: &mut [f32],
) -> u64 {
    // The slices are apart, and each pointer goes with its own length.
    unsafe {
        linked::rk_probe_gains(
            flat.as_ptr(),
            flat.len(),
            activity,
            depth_db,
            logs.as_ptr(),
            logs.len(),
            scratch.as_mut_ptr(),
            scratch.len(),
            output.as_mut_ptr(),
            output.len(),
        )
    }
}

/// The proved record of a frame at the start of `out`: how many bytes it takes, or the refusal's number.
pub fn write_record(
    sample: u64,
    flat: &[f32],
    activity: f32,
    depth_db: f32,
    logs: &[f32],
    scratch: &mut [f32],
    out: &mut [u8],
) -> Result<u64, u64> {
    let mut at = 0;
    // The slices are apart, and each pointer goes with its own length.
    let answer = unsafe {
        linked::rk_probe_write_record(
            sample,
            flat.as_ptr(),
            flat.len(),
            activity,
            depth_db,
            logs.as_ptr(),
            logs.len(),
            scratch.as_mut_ptr(),
            scratch.len(),
            out.as_mut_ptr(),
            out.len(),
            &mut at,
        )
    };
    match answer {
        0 => Ok(at),
        number => Err(number),
    }
}

/// The proved reader: sample, count and size of the record at the start of the bytes, or the number.
pub fn read_record(bytes: &[u8], entries: &mut [u16]) -> Result<(u64, u64, u64), u64> {
    let (mut sample, mut count, mut taken) = (0, 0, 0);
    // The slices and the numbers are apart, and each pointer goes with its own length.
    let answer = unsafe {
        linked::rk_probe_read_record(
            bytes.as_ptr(),
            bytes.len(),
            entries.as_mut_ptr(),
            entries.len(),
            &mut sample,
            &mut count,
            &mut taken,
        )
    };
    match answer {
        0 => Ok((sample, count, taken)),
        number => Err(number),
    }
}

macro_rules! ours {
    ($($name:ident, $linked:ident, $float:ty;)*) => {
        /// The proved functions. They take any float and have no state, so a call is safe.
        pub mod ours {
            $(
                #[inline(always)]
                pub fn $name(x: $float) -> $float {
                    unsafe { super::linked::$linked(x) }
                }
            )*
        }
    };
}

ours! {
    log2, rk_log2, f32;
    exp2, rk_exp2, f32;
    exp, rk_exp, f32;
    exp64, rk_exp64, f64;
    pow8, rk_pow8, f32;
    pow10, rk_pow10, f32;
    sqrt, rk_sqrt, f32;
}

/// The proved Euclidean remainder by 1.
pub fn wrapped(x: f64) -> f64 {
    unsafe { linked::rk_probe_rem_euclid64(x, 1.0) }
}

/// The distance of neighbouring f32s at the size of t, and past the largest.
pub fn spacing32(t: f64) -> f64 {
    let exponent = ((t.abs().to_bits() >> 52) as i32 - 1023).clamp(-126, 127);
    2f64.powi(exponent - 23)
}

pub fn same32(a: f32, b: f32) -> bool {
    a.to_bits() == b.to_bits() || a.is_nan() && b.is_nan()
}

pub fn same64(a: f64, b: f64) -> bool {
    a.to_bits() == b.to_bits() || a.is_nan() && b.is_nan()
}
