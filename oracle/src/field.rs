//! 01, "The event script": one field, its numbers, and how its bytes are read. What breaks it is told
//! apart as order 3 of 02 has it.

#[derive(Clone, Copy, Debug)]
pub struct Settings {
    pub enabled: bool,
    pub shape: u8,
    pub direction: u8,
    pub rate_hz: f32,
    pub size_octaves: f32,
    pub phase: f32,
    pub scheduled: bool,
    pub sync: bool,
    pub hop_samples: u32,
    pub partials: u32,
    pub partial_rolloff_db: f32,
    pub attack_ms: f32,
    pub release_ms: f32,
}

#[derive(Clone, Copy, Debug)]
pub enum Field {
    Rate(f32),
    Configure(Settings),
    Source(u16, f32, f32, bool),
    Retire(u16),
    Release(u16),
    Trigger(u16),
    Seek(f64),
    Advance(u32),
    Frame(f32, f32),
    NoteInput(bool),
    Reset,
    Reserve,
    Reserved(u16, u64),
}

/// The numbers of a field that stops the script, 01's and order 3's.
pub const TAG: u32 = 8;
pub const VALUE: u32 = 10;
pub const PLACE: u32 = 11;
pub const LENGTH: u32 = 12;
pub const HEADER_CUT: u32 = 14;
pub const WRONG_LENGTH: u32 = 15;
pub const VALUE_CUT: u32 = 16;

/// The length of each tag's value, by the tag; nothing for an unknown one.
fn length_of(tag: u8) -> Option<usize> {
    const LENGTHS: [usize; 13] = [4, 37, 11, 2, 2, 2, 8, 4, 8, 1, 0, 0, 10];
    LENGTHS.get(usize::from(tag).wrapping_sub(1)).copied()
}

/// Reads the field at the start of `rest` and hands on what follows it. The order of the tests is
/// 01's: header cut, place of rate, tag, length or value cut, value; the length comes before the value.
pub fn read(rest: &[u8], first: bool) -> Result<(Field, &[u8]), u32> {
    // 01: an empty script is bad by 11.
    if first && rest.is_empty() {
        return Err(PLACE);
    }
    let [tag, high, low, tail @ ..] = rest else {
        return Err(HEADER_CUT);
    };
    if (*tag == 1) != first {
        return Err(PLACE);
    }
    let length = length_of(*tag).ok_or(TAG)?;
    let stated = usize::from(u16::from_be_bytes([*high, *low]));
    if stated != length {
        return Err(WRONG_LENGTH);
    }
    if tail.len() < length {
        return Err(VALUE_CUT);
    }
    let (value, next) = tail.split_at(length);
    Ok((value_of(*tag, &mut Taker(value))?, next))
}

/// Takes numbers off the front of a value whose length is already right.
struct Taker<'a>(&'a [u8]);

impl Taker<'_> {
    fn word(&mut self, bytes: usize) -> u64 {
        let (word, rest) = self.0.split_at(bytes);
        self.0 = rest;
        word.iter().fold(0, |n, b| n << 8 | u64::from(*b))
    }
    fn slot(&mut self) -> u16 {
        self.word(2) as u16
    }
    fn single(&mut self) -> f32 {
        f32::from_bits(self.word(4) as u32)
    }
    /// A byte that may be at most `limit`.
    fn choice(&mut self, limit: u8) -> Result<u8, u32> {
        let byte = self.word(1) as u8;
        if byte > limit {
            Err(VALUE)
        } else {
            Ok(byte)
        }
    }
    fn flag(&mut self) -> Result<bool, u32> {
        Ok(self.choice(1)? == 1)
    }
}

fn value_of(tag: u8, v: &mut Taker) -> Result<Field, u32> {
    Ok(match tag {
        1 => Field::Rate(v.single()),
        2 => Field::Configure(Settings {
            enabled: v.flag()?,
            shape: v.choice(1)?,
            direction: v.choice(2)?,
            rate_hz: v.single(),
            size_octaves: v.single(),
            phase: v.single(),
            scheduled: v.flag()?,
            sync: v.flag()?,
            hop_samples: v.word(4) as u32,
            partials: v.word(4) as u32,
            partial_rolloff_db: v.single(),
            attack_ms: v.single(),
            release_ms: v.single(),
        }),
        3 => Field::Source(v.slot(), v.single(), v.single(), v.flag()?),
        4 => Field::Retire(v.slot()),
        5 => Field::Release(v.slot()),
        6 => Field::Trigger(v.slot()),
        7 => Field::Seek(f64::from_bits(v.word(8))),
        8 => Field::Advance(v.word(4) as u32),
        9 => Field::Frame(v.single(), v.single()),
        10 => Field::NoteInput(v.flag()?),
        11 => Field::Reset,
        12 => Field::Reserve,
        _ => Field::Reserved(v.slot(), v.word(8)),
    })
}
