//! 02, order 5: the record of a frame, how its bytes are read, and the mask file of a script.
use crate::engine::{Frame, Particles};
use crate::field::{read as read_field, Field};
use crate::mask::{bin_table, decibels, logs_pass};
use crate::runner::{run, Answer};
use crate::tenths::{gain, is_entry};

/// 02's numbers.
pub const NO_ROOM: u32 = 13;
pub const NOT_A_NUMBER: u32 = 18;
pub const RECORD: u32 = 19;

/// A record has from 1 to so many bins.
pub const BINS: usize = 8_193;

/// Tag and length of the first field, its sample and count, and tag and length of the second.
pub const HEAD: usize = 16;

/// The bytes of a record: tag 32 with sample and bin count, tag 33 with an entry a bin.
pub fn encoded(sample: u64, entries: &[u16]) -> Vec<u8> {
    let count = entries.len() as u16;
    let mut bytes = vec![32, 0, 10];
    bytes.extend(sample.to_be_bytes());
    bytes.extend(count.to_be_bytes());
    bytes.push(33);
    bytes.extend(count.wrapping_mul(2).to_be_bytes());
    bytes.extend(entries.iter().flat_map(|e| e.to_be_bytes()));
    bytes
}

/// Puts the record of a frame behind the `at` bytes that `out` holds, and the openness into scratch as
/// the mask call does; a refusal leaves all as it was.
pub fn write(
    sample: u64,
    frame: &Frame,
    depth_db: f32,
    logs: &[f32],
    scratch: &mut [f32],
    out: &mut [u8],
    at: &mut u64,
) -> u32 {
    if scratch.len() != logs.len() {
        return 5;
    }
    if !logs_pass(logs) {
        return 6;
    }
    if !(1..=BINS).contains(&logs.len()) {
        return RECORD;
    }
    let mut opened = scratch.to_vec();
    let decibels = decibels(frame, depth_db, logs, &mut opened);
    let entries: Option<Vec<u16>> = decibels.iter().map(|db| gain(-db)).collect();
    let Some(entries) = entries else {
        return NOT_A_NUMBER;
    };
    let answer = put(&encoded(sample, &entries), out, at);
    if answer == 0 {
        scratch.copy_from_slice(&opened);
    }
    answer
}

/// 0, or 13 and all as it was. A place past the end has no room, for no bytes either.
fn put(bytes: &[u8], out: &mut [u8], at: &mut u64) -> u32 {
    let free = (out.len() as u64).checked_sub(*at);
    if free.is_none_or(|free| free < bytes.len() as u64) {
        return NO_ROOM;
    }
    let start = *at as usize;
    out[start..start + bytes.len()].copy_from_slice(bytes);
    *at += bytes.len() as u64;
    0
}

pub enum Read {
    End,
    Found {
        sample: u64,
        entries: Vec<u16>,
        /// How many bytes it takes; the rest is the next one's.
        bytes: usize,
    },
    Refused(u32),
}

/// Reads the record at the start of the bytes, for so many places.
pub fn read(bytes: &[u8], places: usize) -> Read {
    if bytes.is_empty() {
        return Read::End;
    }
    let Some((sample, entries)) = decoded(bytes) else {
        return Read::Refused(RECORD);
    };
    if entries.len() > places {
        return Read::Refused(NO_ROOM);
    }
    Read::Found {
        sample,
        bytes: HEAD + 2 * entries.len(),
        entries,
    }
}

/// Sample and entries, where tags, order, lengths, count and every entry are right.
fn decoded(bytes: &[u8]) -> Option<(u64, Vec<u16>)> {
    let (first, rest) = field(bytes, 32)?;
    let (sample, count) = first.split_first_chunk::<8>()?;
    let count = u16::from_be_bytes(count.try_into().ok()?);
    let (second, _) = field(rest, 33)?;
    if second.len() != 2 * usize::from(count) || !(1..=BINS).contains(&count.into()) {
        return None;
    }
    let entries = second.chunks(2).map(|e| u16::from_be_bytes([e[0], e[1]]));
    let entries: Vec<u16> = entries.collect();
    let all = entries.iter().all(|e| is_entry(*e));
    all.then_some((u64::from_be_bytes(*sample), entries))
}

/// The value of the field at the start of the bytes, where it has this tag, and what follows it.
fn field(bytes: &[u8], tag: u8) -> Option<(&[u8], &[u8])> {
    let ([found, high, low], rest) = bytes.split_first_chunk()?;
    let length = u16::from_be_bytes([*high, *low]).into();
    (*found == tag).then_some(())?;
    rest.split_at_checked(length)
}

/// The records of all accepted frames of a script behind the `at` bytes that `out` holds. Refusals, all
/// as it was: 3; 12; what comes first in the script of 18 at a frame and the number that it goes bad
/// with; 13.
pub fn file<E: Particles>(
    script: &[u8],
    fft_size: u64,
    depth_db: f32,
    out: &mut [u8],
    at: &mut u64,
) -> u32 {
    if !(1..=16_384).contains(&fft_size) {
        return 3;
    }
    let mut logs = vec![0.0; fft_size as usize / 2 + 1];
    if let Ok((Field::Rate(rate), _)) = read_field(script, true) {
        bin_table(rate, fft_size, &mut logs);
    }
    let mut scratch = vec![0.0; logs.len()];
    let mut lent = vec![0; HEAD + 2 * logs.len()];
    let (mut bytes, mut refused) = (Vec::new(), 0);
    let ended = run(0, script, |_, answer, engine: &E| {
        if let (0, Answer::Framed(frame)) = (refused, answer) {
            let sample = engine.elapsed_samples();
            refused = write(sample, frame, depth_db, &logs, &mut scratch, &mut lent, &mut 0);
            bytes.extend_from_slice(&lent);
        }
    });
    match ended {
        _ if refused != 0 => refused,
        Err(bad) => bad.number,
        Ok(_) => put(&bytes, out, at),
    }
}
