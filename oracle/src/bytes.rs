//! 01's entry for a host: the last accepted frame of a script in 2,308 lent bytes.
use crate::engine::{Frame, Particles};
use crate::field::LENGTH;
use crate::runner::{run, Answer, SCRIPT_LIMIT};
use crate::value::bits32;

pub const SIZE: usize = 2_308;

/// 0, or 5, 12 or the bad number, in that order, with the bytes unchanged.
pub fn last_frame<E: Particles>(script: &[u8], out: &mut [u8]) -> u32 {
    if out.len() != SIZE {
        return 5;
    }
    if script.len() > SCRIPT_LIMIT {
        return LENGTH;
    }
    let mut last = Frame::empty();
    let ended = run(0, script, |_, answer, _: &E| {
        if let Answer::Framed(frame) = answer {
            last = (**frame).clone();
        }
    });
    match ended {
        Ok(_) => {
            out.copy_from_slice(&encode(&last));
            0
        }
        Err(bad) => bad.number,
    }
}

/// 192 windows (centre, radius, amplitude), then activity, big-endian.
pub fn encode(frame: &Frame) -> Vec<u8> {
    let floats = frame.windows.iter().flatten().chain([&frame.activity]);
    floats.flat_map(|x| bits32(*x).to_be_bytes()).collect()
}
