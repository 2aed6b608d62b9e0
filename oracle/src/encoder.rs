//! 02, order 2: the one encoding of each event, and what a call of the writer leaves.
use crate::field::{read, Field, Settings};
use crate::runner::SCRIPT_LIMIT;
use crate::value::{bits32, bits64};

/// 02's number for an event that doesn't fit.
pub const NO_ROOM: u32 = 13;

/// The form has 32 bits for a hop and for partials; what is above them is written as the greatest.
pub fn held(n: usize) -> u32 {
    u32::try_from(n).unwrap_or(u32::MAX)
}

/// Numbers one behind the other, the highest byte first.
#[derive(Default)]
struct Value(Vec<u8>);

impl Value {
    fn number(mut self, n: u64, bytes: usize) -> Self {
        self.0.extend(&n.to_be_bytes()[8 - bytes..]);
        self
    }
    fn byte(self, n: u8) -> Self {
        self.number(n.into(), 1)
    }
    fn flag(self, flag: bool) -> Self {
        self.byte(flag.into())
    }
    fn slot(self, slot: u16) -> Self {
        self.number(slot.into(), 2)
    }
    /// `bits32` has 02's pattern for every NaN, 7FC00000, and `bits64` that of a seek.
    fn single(self, x: f32) -> Self {
        self.number(bits32(x).into(), 4)
    }
    fn settings(self, s: &Settings) -> Self {
        self.flag(s.enabled)
            .byte(s.shape)
            .byte(s.direction)
            .single(s.rate_hz)
            .single(s.size_octaves)
            .single(s.phase)
            .flag(s.scheduled)
            .flag(s.sync)
            .number(s.hop_samples.into(), 4)
            .number(s.partials.into(), 4)
            .single(s.partial_rolloff_db)
            .single(s.attack_ms)
            .single(s.release_ms)
    }
}

/// The bytes of an event: tag, length, value.
pub fn encoded(field: &Field) -> Vec<u8> {
    let v = Value::default();
    let (tag, Value(value)) = match *field {
        Field::Rate(rate) => (1, v.single(rate)),
        Field::Configure(settings) => (2, v.settings(&settings)),
        Field::Source(slot, frequency_hz, strength, eligible) => {
            let v = v.slot(slot).single(frequency_hz).single(strength);
            (3, v.flag(eligible))
        }
        Field::Retire(slot) => (4, v.slot(slot)),
        Field::Release(slot) => (5, v.slot(slot)),
        Field::Trigger(slot) => (6, v.slot(slot)),
        Field::Seek(cycles) => (7, v.number(bits64(cycles), 8)),
        Field::Advance(samples) => (8, v.number(samples.into(), 4)),
        Field::Frame(bin_hz, elapsed) => (9, v.single(bin_hz).single(elapsed)),
        Field::NoteInput(present) => (10, v.flag(present)),
        Field::Reset => (11, v),
        Field::Reserve => (12, v),
        Field::Reserved(slot, index) => (13, v.slot(slot).number(index, 8)),
    };
    let mut bytes = vec![tag];
    bytes.extend((value.len() as u16).to_be_bytes());
    bytes.extend(value);
    bytes
}

/// Puts an event behind the `at` bytes that `out` holds and answers 0; where the free bytes are fewer
/// than it needs the answer is 13, and all is as it was.
pub fn write(field: &Field, out: &mut [u8], at: &mut u64) -> u32 {
    let bytes = encoded(field);
    let free = (out.len() as u64).saturating_sub(*at);
    if free < bytes.len() as u64 {
        return NO_ROOM;
    }
    let start = *at as usize;
    out[start..start + bytes.len()].copy_from_slice(&bytes);
    *at += bytes.len() as u64;
    0
}

/// The fields of a script as far as the reading takes them, each put behind the one before it, and how
/// many bytes there are then.
pub fn rewritten(script: &[u8], out: &mut [u8]) -> usize {
    let mut at = 0;
    if script.len() > SCRIPT_LIMIT {
        return 0;
    }
    let mut rest = script;
    while let Ok((field, next)) = read(rest, rest.len() == script.len()) {
        write(&field, out, &mut at);
        rest = next;
    }
    at as usize
}
