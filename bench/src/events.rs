//! The events of a script, by the port's writer and by a plain one: each has one function that writes
//! one event into lent bytes and answers 0, or 13 where it doesn't fit.
use crate::linked;

#[derive(Clone, Copy)]
pub enum Event {
    Rate(f32),
    Configure(Settings),
    Source(u16, f32, f32, bool),
    Retire(u16),
    Release(u16),
    Trigger(u16),
    Seek(f64),
    Advance(u32),
    Frame(f32, f32),
    NoteInput(bool),
    Reset,
    Reserve,
    ReservedTrigger(u16, u64),
}

#[derive(Clone, Copy)]
pub struct Settings {
    pub enabled: bool,
    pub shape: u8,
    pub direction: u8,
    pub rate_hz: f32,
    pub size_octaves: f32,
    pub phase: f32,
    pub scheduled: bool,
    pub sync: bool,
    pub hop_samples: usize,
    pub partials: usize,
    pub partial_rolloff_db: f32,
    pub attack_ms: f32,
    pub release_ms: f32,
}

/// The proved writer.
#[inline(never)]
pub fn ours(event: &Event, bytes: &mut [u8], at: &mut u64) -> u32 {
    let (out, room) = (bytes.as_mut_ptr(), bytes.len());
    // The count lies apart from the bytes, and their pointer goes with their length.
    unsafe {
        match *event {
            Event::Rate(rate) => linked::rk_write_rate(rate, out, room, at),
            Event::Configure(s) => linked::rk_write_configure(
                s.enabled,
                s.shape,
                s.direction,
                s.rate_hz,
                s.size_octaves,
                s.phase,
                s.scheduled,
                s.sync,
                s.hop_samples,
                s.partials,
                s.partial_rolloff_db,
                s.attack_ms,
                s.release_ms,
                out,
                room,
                at,
            ),
            Event::Source(slot, hz, strength, eligible) => {
                linked::rk_write_source(slot, hz, strength, eligible, out, room, at)
            }
            Event::Retire(slot) => linked::rk_write_retire(slot, out, room, at),
            Event::Release(slot) => linked::rk_write_release(slot, out, room, at),
            Event::Trigger(slot) => linked::rk_write_trigger(slot, out, room, at),
            Event::Seek(cycles) => linked::rk_write_seek(cycles, out, room, at),
            Event::Advance(samples) => linked::rk_write_advance(samples, out, room, at),
            Event::Frame(bin_hz, elapsed) => linked::rk_write_frame(bin_hz, elapsed, out, room, at),
            Event::NoteInput(present) => linked::rk_write_note_input(present, out, room, at),
            Event::Reset => linked::rk_write_reset(out, room, at),
            Event::Reserve => linked::rk_write_reserve(out, room, at),
            Event::ReservedTrigger(slot, index) => {
                linked::rk_write_reserved_trigger(slot, index, out, room, at)
            }
        }
    }
}

/// The plain writer.
#[inline(never)]
pub fn plain(event: &Event, bytes: &mut [u8], at: &mut u64) -> u32 {
    match *event {
        Event::Rate(rate) => field(bytes, at, 1, single(rate)),
        Event::Configure(s) => field(bytes, at, 2, settings(&s)),
        Event::Source(slot, hz, strength, eligible) => {
            let mut value = [0; 11];
            value[..2].copy_from_slice(&slot.to_be_bytes());
            value[2..6].copy_from_slice(&single(hz));
            value[6..10].copy_from_slice(&single(strength));
            value[10] = eligible.into();
            field(bytes, at, 3, value)
        }
        Event::Retire(slot) => field(bytes, at, 4, slot.to_be_bytes()),
        Event::Release(slot) => field(bytes, at, 5, slot.to_be_bytes()),
        Event::Trigger(slot) => field(bytes, at, 6, slot.to_be_bytes()),
        Event::Seek(cycles) => field(bytes, at, 7, double(cycles)),
        Event::Advance(samples) => field(bytes, at, 8, samples.to_be_bytes()),
        Event::Frame(bin_hz, elapsed) => {
            let mut value = [0; 8];
            value[..4].copy_from_slice(&single(bin_hz));
            value[4..].copy_from_slice(&single(elapsed));
            field(bytes, at, 9, value)
        }
        Event::NoteInput(present) => field(bytes, at, 10, [present.into()]),
        Event::Reset => field(bytes, at, 11, []),
        Event::Reserve => field(bytes, at, 12, []),
        Event::ReservedTrigger(slot, index) => {
            let mut value = [0; 10];
            value[..2].copy_from_slice(&slot.to_be_bytes());
            value[2..].copy_from_slice(&index.to_be_bytes());
            field(bytes, at, 13, value)
        }
    }
}

fn field<const N: usize>(bytes: &mut [u8], at: &mut u64, tag: u8, value: [u8; N]) -> u32 {
    let free = bytes.get_mut(*at as usize..).unwrap_or_default();
    let Some(place) = free.get_mut(..3 + N) else {
        return 13;
    };
    place[0] = tag;
    place[1..3].copy_from_slice(&(N as u16).to_be_bytes());
    place[3..].copy_from_slice(&value);
    *at += 3 + N as u64;
    0
}

fn settings(s: &Settings) -> [u8; 37] {
    let mut value = [0; 37];
    value[..3].copy_from_slice(&[s.enabled.into(), s.shape.min(1), s.direction.min(2)]);
    value[3..7].copy_from_slice(&single(s.rate_hz));
    value[7..11].copy_from_slice(&single(s.size_octaves));
    value[11..15].copy_from_slice(&single(s.phase));
    value[15..17].copy_from_slice(&[s.scheduled.into(), s.sync.into()]);
    value[17..21].copy_from_slice(&held(s.hop_samples));
    value[21..25].copy_from_slice(&held(s.partials));
    value[25..29].copy_from_slice(&single(s.partial_rolloff_db));
    value[29..33].copy_from_slice(&single(s.attack_ms));
    value[33..].copy_from_slice(&single(s.release_ms));
    value
}

fn held(n: usize) -> [u8; 4] {
    u32::try_from(n).unwrap_or(u32::MAX).to_be_bytes()
}

/// Every NaN as one pattern.
fn single(x: f32) -> [u8; 4] {
    let bits = if x.is_nan() { 0x7fc0_0000 } else { x.to_bits() };
    bits.to_be_bytes()
}

fn double(x: f64) -> [u8; 8] {
    let bits = if x.is_nan() {
        0x7ff8_0000_0000_0000
    } else {
        x.to_bits()
    };
    bits.to_be_bytes()
}
