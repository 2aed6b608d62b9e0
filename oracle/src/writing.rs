//! The port's writer held against the encoder: single events and lists of them, both read back, and
//! every room and count about an event's size.
use crate::compare::Sum;
use crate::draws::Draws;
use crate::encoder::{encoded, rewritten, write};
use crate::events::{Events, Writer, WRITERS, WRITTEN};
use crate::field::Field;
use crate::part::Part;
use crate::port;
use crate::runner::SCRIPT_LIMIT;
use crate::scripts::UNTOUCHED;
use std::fmt::Display;
use std::io::{self, Write};

/// So many events are written.
const EVENTS: usize = 1_000_000;

/// So many events of each kind meet every room and count.
const EACH: usize = 5;

/// So many bytes stand behind what is written, and must be left alone.
const BEHIND: usize = 50;

/// How many bytes the rate takes in front of a script.
const RATE_SIZE: usize = 7;

/// How many bytes a configure takes, the longest event.
const LONGEST: usize = 40;

/// One buffer for the port and one for the encoder, which begin alike, and the count behind which both
/// write. So many bytes of them are lent, and more stand behind.
struct Lent {
    room: usize,
    want: Vec<u8>,
    got: Vec<u8>,
    want_at: u64,
    got_at: u64,
}

impl Lent {
    fn new() -> Self {
        Lent {
            room: 0,
            want: Vec::new(),
            got: Vec::new(),
            want_at: 0,
            got_at: 0,
        }
    }
    /// A room of so many bytes, a pattern in both buffers.
    fn begin(&mut self, room: usize, at: u64, pattern: u64) {
        let bytes = pattern.to_be_bytes();
        for buffer in [&mut self.want, &mut self.got] {
            buffer.clear();
            buffer.extend(bytes.iter().cycle().take(room + BEHIND));
        }
        self.room = room;
        (self.want_at, self.got_at) = (at, at);
    }
    /// Writes an event to both, and answers what the encoder says and what the port says.
    fn write(&mut self, writer: &Writer, words: &[u64]) -> (u32, u32) {
        let (want, got) = (&mut self.want[..self.room], &mut self.got[..self.room]);
        let want = write(&(writer.field)(words), want, &mut self.want_at);
        let got = (writer.port)(words, got, &mut self.got_at);
        (want, got)
    }
    /// Whether the whole buffers and the counts are the same.
    fn same(&self) -> bool {
        self.want_at == self.got_at && self.want == self.got
    }
}

pub fn compare<W: Write>(base: u64, sum: &mut Sum<W>) -> io::Result<()> {
    let mut single = Part::new("events written by rk_write_NAME".into(), WRITTEN);
    let mut back = Part::new(
        "events written and read back by rk_probe_rewritten".into(),
        WRITTEN && port::REWRITTEN,
    );
    let mut lists = Part::new(
        "lists of events, written and read by rk_probe_rewritten".into(),
        WRITTEN && port::REWRITTEN,
    );
    let mut rooms = Part::new("rooms and counts of rk_write_NAME".into(), WRITTEN);
    if WRITTEN {
        compare_events(base, &mut single, &mut back, &mut lists);
        compare_rooms(base, &mut rooms);
    }
    [single, back, lists, rooms]
        .iter()
        .try_for_each(|part| sum.counted(part))
}

/// Each event by itself; as a script of its own, behind a rate; and behind others of a list: it begins
/// with a rate, has no other, and goes on until an event doesn't fit.
fn compare_events(base: u64, single: &mut Part, back: &mut Part, lists: &mut Part) {
    let mut events = Events::new(base, "events");
    let (mut lent, mut list) = (Lent::new(), Lent::new());
    let (mut open, mut agree) = (false, true);
    for n in 0..EVENTS {
        let (writer, words) = events.next().expect("events without end");
        let field = (writer.field)(&words);
        let d = &mut events.draws;
        let (room, at) = place(encoded(&field).len() as u64, d);
        lent.begin(room as usize, at, d.word());
        let (want, got) = lent.write(writer, &words);
        let case = format_args!("{} {words:x?} at {at} of {room}", writer.name);
        single.add(case, want == got && lent.same());

        let rate = matches!(field, Field::Rate(_));
        if port::REWRITTEN {
            let case = format_args!("{} {words:x?}, read back", writer.name);
            back.add(case, alone(&mut lent, rate, writer, &words));
        }
        if rate == open {
            continue;
        }
        if rate {
            let room = match d.below(8) {
                0 => SCRIPT_LIMIT,
                _ => d.below(SCRIPT_LIMIT as u64) as usize >> d.below(12),
            };
            list.begin(room, 0, d.word());
            agree = true;
        }
        let (want, got) = list.write(writer, &words);
        agree &= want == got;
        open = want == 0;
        if !open && port::REWRITTEN {
            let case = format_args!("the list that has no room for event {n}");
            lists.add(case, agree && list.same() && read_back(&list));
        }
    }
}

/// Whether the event, behind a rate where it is none itself, is written as the encoder says and read back.
fn alone(lent: &mut Lent, rate: bool, writer: &Writer, words: &[u64]) -> bool {
    lent.begin(RATE_SIZE + LONGEST, 0, 0);
    // The first row is the rate.
    let first = rate || lent.write(&WRITERS[0], &[0]) == (0, 0);
    first && lent.write(writer, words) == (0, 0) && lent.same() && read_back(lent)
}

/// A room and a count for an event or a record of so many bytes: mostly it fits, at times to the last
/// byte.
pub fn place(size: u64, d: &mut Draws) -> (u64, u64) {
    let free = match d.below(4) {
        0 => d.below(2 * size),
        1 => size,
        _ => size + d.below(30),
    };
    let before = d.below(60);
    match d.below(16) {
        0 => (before + free, d.word() >> d.below(64)),
        _ => (before + free, before),
    }
}

/// Whether the port reads what stands in the buffer and writes the same again, the bytes behind it
/// untouched.
fn read_back(list: &Lent) -> bool {
    let bytes = &list.got[..list.got_at as usize];
    let mut got = vec![UNTOUCHED; bytes.len() + BEHIND];
    let mut want = got.clone();
    want[..bytes.len()].copy_from_slice(bytes);
    port::rewritten(bytes, &mut got) == Some(bytes.len()) && got == want
}

/// Rooms from none to one byte more than the event needs, and a larger one; counts before the end, at
/// it and past it, and those that wrap where the event's size is added.
fn compare_rooms(base: u64, rooms: &mut Part) {
    let mut events = Events::new(base, "rooms");
    let mut lent = Lent::new();
    for _ in 0..EACH * WRITERS.len() {
        let (writer, words) = events.next().expect("events without end");
        let size = encoded(&(writer.field)(&words)).len() as u64;
        for room in (0..=size + 1).chain([3 * size]) {
            let near = 0..=room + size + 1;
            let large =
                (0..64).flat_map(|power| [(1 << power) - 1, 1 << power, (1 << power) + room]);
            let last = (0..=room + size + 1).map(|n| u64::MAX - n);
            for at in near.chain(large).chain(last) {
                lent.begin(room as usize, at, events.draws.word());
                let (want, got) = lent.write(writer, &words);
                let case = format_args!("{} {words:x?} at {at} of {room}", writer.name);
                rooms.add(case, want == got && lent.same());
            }
        }
    }
}

/// Scripts that the port reads and writes again, held against the reading and the encoder.
pub struct Rewriting(Part);

impl Rewriting {
    pub fn new() -> Self {
        let name = "scripts read and written again by rk_probe_rewritten";
        Rewriting(Part::new(name.into(), port::REWRITTEN))
    }
    pub fn part(self) -> Part {
        self.0
    }
    /// The script, with room behind what is written and with a room in which some fields don't fit; the
    /// script cut somewhere, with no rate in front, and twice, so that a rate comes later.
    pub fn compare(&mut self, name: &str, script: &[u8], d: &mut Draws) {
        let whole = script.len();
        let cut = d.below(whole as u64 + 1) as usize;
        let short = d.below(whole as u64 + 1) as usize;
        let (first, later) = (&script[..cut], &script[RATE_SIZE.min(whole)..]);
        let room = whole + BEHIND;
        self.add(name, script, room);
        self.add(format_args!("{name}, room {short}"), script, short);
        self.add(format_args!("{name}, first {cut} bytes"), first, room);
        self.add(format_args!("{name}, with no rate"), later, room);
        self.add(format_args!("{name}, twice"), &script.repeat(2), room);
    }
    /// A case for the count and every byte of so much room.
    fn add(&mut self, case: impl Display, script: &[u8], room: usize) {
        let (mut want, mut got) = (vec![UNTOUCHED; room], vec![UNTOUCHED; room]);
        let expected = rewritten(script, &mut want);
        if let Some(count) = port::rewritten(script, &mut got) {
            self.0.add(case, count == expected && got == want);
        }
    }
}
