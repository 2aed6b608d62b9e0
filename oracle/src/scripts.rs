//! The port on generated scripts of every kind in turn: entry, listing, what every field leaves, and
//! the script read and written again.
use crate::bytes::{last_frame, SIZE};
use crate::compare::Sum;
use crate::draws::Draws;
use crate::ends::{ends, up_to, End};
use crate::gen::{longer, script, KINDS};
use crate::left::Left;
use crate::listing::listing;
use crate::original::Engine;
use crate::part::Part;
use crate::runner::SCRIPT_LIMIT;
use crate::writing::Rewriting;
use crate::{late, plain, port};
use std::io::{self, Write};
use std::iter;

/// So many scripts also run with std's functions, to show what the substitution changes.
const PLAIN: u64 = 300;

/// What lent bytes begin as: no listing has it, and neither has a frame or a state throughout.
pub const UNTOUCHED: u8 = 0xa5;

/// The rooms that the entry is lent: the one that it takes, and others, which it refuses.
const ROOMS: [usize; 5] = [SIZE, SIZE - 1, SIZE + 1, 2 * SIZE, 0];

/// At times a call is made again with a byte too few.
pub fn short_too(script: &[u8]) -> bool {
    script.len() % 50 == 7
}

/// How many scripts were compared, and how many up to the field at which a run would have more steps
/// than the limit.
#[derive(Default)]
struct Runs {
    compared: u64,
    cut: u64,
}

/// One start of the scripts: the listing, and what every field leaves.
struct Started {
    listed: Part,
    left: Left,
    runs: Runs,
}

impl Started {
    fn new(listed: Part, left: Left) -> Self {
        Started {
            listed,
            left,
            runs: Runs::default(),
        }
    }
    /// Compares as much of a script as the limit allows, and answers the ends of its fields.
    fn compare(&mut self, name: &str, start: u64, script: &[u8], limit: u64) -> Ends {
        let all = ends(start, script);
        let ends = up_to(limit, &all);
        let cut = ends.len() < all.len();
        let script = match ends.last() {
            _ if !cut => script,
            Some(end) => &script[..end.bytes],
            None => &[],
        };
        self.runs.compared += 1;
        self.runs.cut += u64::from(cut);
        if let Some(same) = listing_same(start, script, 0) {
            self.listed.add(name, same);
        }
        if short_too(script) {
            if let Some(same) = listing_same(start, script, 1) {
                self.listed
                    .add(format_args!("{name}, too little room"), same);
            }
        }
        self.left.compare(name, start, script, ends);
        Ends {
            whole: script.len(),
            fields: ends.to_vec(),
        }
    }
}

/// Where the part of a script that was compared ends, and where its fields do.
struct Ends {
    whole: usize,
    fields: Vec<End>,
}

/// Compares `count` scripts, as they are and with ten times the samples, each as far as a run has at
/// most `limit` steps. The seeds are those from `base` on.
pub fn compare<W: Write>(count: u64, base: u64, limit: u64, sum: &mut Sum<W>) -> io::Result<()> {
    let mut entry = Part::new("the script entry rk_script".into(), port::ENTRY);
    let mut new = Started::new(
        Part::new("the listing rk_probe_listing".into(), port::LISTED),
        Left::new("rk_probe_fields", port::LEFT),
    );
    let mut late = Started::new(
        Part::new(
            "the listing rk_probe_listing_from".into(),
            port::LATE_LISTED,
        ),
        Left::new("rk_probe_fields_from", port::LATE_LEFT),
    );
    let mut rewriting = Rewriting::new();
    let mut same_plain = 0;
    for n in 0..count {
        let kind = &KINDS[(n % KINDS.len() as u64) as usize];
        let seed = base.wrapping_add(n / KINDS.len() as u64);
        let bytes = script(seed, kind);
        if n < PLAIN {
            let plain = listing::<plain::Engine>(0, &bytes);
            same_plain += u64::from(plain == listing::<Engine>(0, &bytes));
        }
        // Without an advance there is no longer one.
        let long = Some(longer(&bytes)).filter(|long| *long != bytes);
        let long = long.map(|long| ("longer", long));
        for (what, bytes) in iter::once(("gen", bytes)).chain(long) {
            let name = format!("{what} {seed} {}", kind.name);
            rewriting.compare(&name, &bytes, &mut Draws::new(base.wrapping_add(n), what));
            let found = new.compare(&name, 0, &bytes, limit);
            // A shorter script shows a frame in the middle.
            let some = match found.fields.as_slice() {
                [] => 0,
                fields => Draws::new(base.wrapping_add(n), "ends").pick(fields).bytes,
            };
            for end in [found.whole, some] {
                for room in ROOMS {
                    if let Some(same) = entry_same(&bytes[..end], room) {
                        let case = format_args!("{name}, first {end} bytes, room {room}");
                        entry.add(case, same);
                    }
                }
            }
            let start = late::start(seed, &bytes);
            let name = format!("{name}, from {start}");
            late.compare(&name, start, &bytes, limit);
        }
    }
    for (what, runs) in [("new engines", &new.runs), ("late starts", &late.runs)] {
        let Runs { compared, cut } = runs;
        sum.line(&format!(
            "on {what} {compared} scripts with what every field leaves, {cut} of them cut where a \
             run would have more than {limit} samples, a field counted as ten"
        ))?;
    }
    sum.counted(&rewriting.part())?;
    sum.counted(&entry)?;
    for started in [new, late] {
        sum.counted(&started.listed)?;
        for part in started.left.parts() {
            sum.counted(&part)?;
        }
    }
    let shown = count.min(PLAIN);
    sum.line(&format!(
        "for information: {same_plain} of {shown} listings are the same with std's functions"
    ))
}

/// The entry's answer and bytes, with so much room.
pub fn entry_same(script: &[u8], room: usize) -> Option<bool> {
    let (mut want, mut got) = (vec![UNTOUCHED; room], vec![UNTOUCHED; room]);
    let answer = port::last_frame(script, &mut got)?;
    Some(answer == last_frame::<Engine>(script, &mut want) && got == want)
}

/// What the port wants lent for a listing: a field of three bytes has a line of at most 204, and one
/// line ends it.
pub fn room_for(script: &[u8]) -> usize {
    match script.len() {
        0..=SCRIPT_LIMIT => 68 * script.len() + 204,
        _ => 204,
    }
}

/// Whether the listing of a script on an engine that has counted `start` samples, and its length, are
/// the same, the bytes behind it untouched; with bytes too few there is none.
pub fn listing_same(start: u64, script: &[u8], too_few: usize) -> Option<bool> {
    let text = match too_few {
        0 => listing::<Engine>(start, script),
        _ => String::new(),
    };
    let mut got = vec![UNTOUCHED; room_for(script) - too_few];
    let mut want = got.clone();
    want[..text.len()].copy_from_slice(text.as_bytes());
    let length = match start {
        0 => port::listing(script, &mut got),
        _ => port::listing_from(start, script, &mut got),
    }?;
    Some(length == text.len() && got == want)
}
