//! The port's writer, a call for each event, `rk_write_NAME` in `libhost.a`, and events to be written:
//! the edges of every number first, then drawn ones.
use crate::bits::Bits;
use crate::draws::Draws;
use crate::encoder::held;
use crate::field::{Field, Settings};

/// The arguments go over as words, a float by its bits.
pub struct Writer {
    pub name: &'static str,
    arguments: fn() -> Vec<Argument>,
    /// The event that they stand for, as the form holds it.
    pub field: fn(&[u64]) -> Field,
    /// The port's call: its answer.
    pub port: fn(&[u64], &mut [u8], &mut u64) -> u32,
}

/// Whether the archive of the host has them.
pub const WRITTEN: bool = cfg!(written);

macro_rules! writers {
    ($($name:ident $foreign:ident ($($x:ident: $t:ty),*) => $field:expr;)*) => {
        #[cfg(written)]
        extern "C" {
            $(fn $foreign($($x: $t,)* out: *mut u8, room: usize, at: *mut u64) -> u32;)*
        }

        #[cfg(not(written))]
        #[allow(clippy::too_many_arguments)]
        mod absent {
            $(pub unsafe fn $foreign($(_: $t,)* _: *mut u8, _: usize, _: *mut u64) -> u32 {
                unreachable!("nothing is written where the archive is absent")
            })*
        }
        #[cfg(not(written))]
        use absent::*;

        pub const WRITERS: &[Writer] = &[$(Writer {
            name: stringify!($name),
            arguments: || vec![$(Argument::of::<$t>()),*],
            field: |words| {
                let [$($x),*] = words else { unreachable!("a word for each argument") };
                $(let $x = <$t as Bits>::of(*$x);)*
                $field
            },
            port: |words, out, at| {
                let [$($x),*] = words else { unreachable!("a word for each argument") };
                $(let $x = <$t as Bits>::of(*$x);)*
                // The buffer and the count are apart, and the pointer goes with its own length.
                unsafe { $foreign($($x,)* out.as_mut_ptr(), out.len(), at) }
            },
        }),*];
    };
}

writers! {
    rate rk_write_rate(rate: f32) => Field::Rate(rate);
    configure rk_write_configure(enabled: bool, shape: u8, direction: u8, rate_hz: f32, size_octaves: f32, phase: f32, scheduled: bool, sync: bool,
        hop_samples: usize, partials: usize, partial_rolloff_db: f32, attack_ms: f32, release_ms: f32)
        // A shape other than 0 is Cloud, a direction other than 0 and 1 alternate.
        => Field::Configure(Settings {
            enabled, shape: shape.min(1), direction: direction.min(2), rate_hz, size_octaves, phase, scheduled, sync,
            hop_samples: held(hop_samples), partials: held(partials), partial_rolloff_db, attack_ms, release_ms,
        });
    source rk_write_source(slot: u16, frequency_hz: f32, strength: f32, eligible: bool) => Field::Source(slot, frequency_hz, strength, eligible);
    retire rk_write_retire(slot: u16) => Field::Retire(slot);
    release rk_write_release(slot: u16) => Field::Release(slot);
    trigger rk_write_trigger(slot: u16) => Field::Trigger(slot);
    seek rk_write_seek(cycles: f64) => Field::Seek(cycles);
    advance rk_write_advance(samples: u32) => Field::Advance(samples);
    frame rk_write_frame(bin_hz: f32, elapsed: f32) => Field::Frame(bin_hz, elapsed);
    note_input rk_write_note_input(present: bool) => Field::NoteInput(present);
    reset rk_write_reset() => Field::Reset;
    reserve rk_write_reserve() => Field::Reserve;
    reserved_trigger rk_write_reserved_trigger(slot: u16, index: u64) => Field::Reserved(slot, index);
}

/// What an argument of a type is drawn from.
struct Argument {
    edges: Vec<u64>,
    /// Drawn as often as all edges together.
    often: &'static [u64],
    /// The bits that make any word a NaN, or at least not finite; none for a whole number.
    nan: u64,
}

trait Often: Bits {
    const OFTEN: &'static [u64];
    const NAN: u64 = 0;
}

impl Often for bool {
    const OFTEN: &'static [u64] = &[0, 1];
}

impl Often for u8 {
    const OFTEN: &'static [u64] = &[0, 1, 2, 3];
}

impl Often for u16 {
    const OFTEN: &'static [u64] = &[0, 1, 255, 256, 65_535];
}

impl Often for u32 {
    const OFTEN: &'static [u64] = &[0, 1, 48_000, 1 << 31, u32::MAX as u64];
}

impl Often for u64 {
    const OFTEN: &'static [u64] = &[0, 1, 1 << 59, 1 << 63, u64::MAX];
}

/// A hop and partials: about what the form can hold.
impl Often for usize {
    const OFTEN: &'static [u64] = &[0, 24, 16_384, (1 << 32) - 1, 1 << 32, u64::MAX];
}

impl Often for f32 {
    const OFTEN: &'static [u64] = &[
        0,
        0x8000_0000,
        0x0000_0001,
        0x807f_ffff,
        0x7f80_0000,
        0xff80_0000,
        0x7fc0_0000,
        0xffc0_0000,
        0x7f80_0001,
        0xffff_ffff,
    ];
    const NAN: u64 = 0x7f80_0000;
}

impl Often for f64 {
    const OFTEN: &'static [u64] = &[
        0,
        0x8000_0000_0000_0000,
        0x0000_0000_0000_0001,
        0x800f_ffff_ffff_ffff,
        0x7ff0_0000_0000_0000,
        0xfff0_0000_0000_0000,
        0x7ff8_0000_0000_0000,
        0xfff8_0000_0000_0000,
        0x7ff0_0000_0000_0001,
        0xffff_ffff_ffff_ffff,
    ];
    const NAN: u64 = 0x7ff0_0000_0000_0000;
}

impl Argument {
    fn of<T: Often>() -> Self {
        Argument {
            edges: T::edges(),
            often: T::OFTEN,
            nan: T::NAN,
        }
    }
    fn draw(&self, d: &mut Draws) -> u64 {
        match d.below(4) {
            0 => d.pick(&self.edges),
            1 => d.pick(self.often),
            2 => d.word() | self.nan,
            _ => d.word(),
        }
    }
}

/// Events without end, of every kind in turn.
pub struct Events {
    arguments: Vec<Vec<Argument>>,
    pub draws: Draws,
    at: usize,
}

impl Events {
    pub fn new(base: u64, salt: &str) -> Self {
        Events {
            arguments: WRITERS.iter().map(|w| (w.arguments)()).collect(),
            draws: Draws::new(base, salt),
            at: 0,
        }
    }
}

impl Iterator for Events {
    type Item = (&'static Writer, Vec<u64>);

    fn next(&mut self) -> Option<Self::Item> {
        let (kind, round) = (self.at % WRITERS.len(), self.at / WRITERS.len());
        self.at += 1;
        let draws = &mut self.draws;
        let words = self.arguments[kind].iter().map(|argument| {
            let edge = argument.edges.get(round).copied();
            edge.unwrap_or_else(|| argument.draw(draws))
        });
        Some((&WRITERS[kind], words.collect()))
    }
}
