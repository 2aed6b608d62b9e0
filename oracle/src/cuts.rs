//! Scripts that break off: a field of every tag and length at each of its bytes, and generated scripts
//! at every byte of their last field.
use crate::bytes::SIZE;
use crate::compare::Sum;
use crate::ends::ends;
use crate::gen::script::Script;
use crate::gen::{script, KINDS};
use crate::listing::listing;
use crate::original::Engine;
use crate::part::Answered;
use crate::port;
use crate::runner::run;
use crate::scripts::{entry_same, listing_same};
use std::io::{self, Write};
use std::ops::RangeInclusive;

/// Of a field that no run takes so many bytes may follow its header.
const FOLLOWING: usize = 64;

/// The tag of an advance.
const ADVANCE: u8 = 8;

/// The numbers that the cuts must meet: a script that ends, a refused rate, and every way for a field to
/// be bad.
const MET: [u64; 8] = [0, 1, 8, 10, 11, 14, 15, 16];

pub fn compare<W: Write>(count: u64, base: u64, sum: &mut Sum<W>) -> io::Result<()> {
    let here = port::LISTED && port::ENTRY;
    let mut cuts = Answered::new("scripts cut in a field", here);
    for (name, script) in broken() {
        add(&mut cuts, &name, &script);
    }
    for n in 0..count {
        let kind = &KINDS[(n % KINDS.len() as u64) as usize];
        let seed = base.wrapping_add(n / KINDS.len() as u64);
        let script = shorter(script(seed, kind));
        for end in ends_of_last(&script) {
            add(&mut cuts, &format!("{seed} {}", kind.name), &script[..end]);
        }
    }
    cuts.tell(&MET, sum)
}

/// The listing and the entry's answer.
fn add(cuts: &mut Answered, name: &str, script: &[u8]) {
    let ended = run(0, script, |_, _, _: &Engine| {});
    let number = ended.map_or_else(|bad| bad.number, |_| 0);
    let same = listing_same(0, script, 0).zip(entry_same(script, SIZE));
    if let Some((listed, entered)) = same {
        let name = format!("{name}, first {} bytes", script.len());
        cuts.add(name, number.into(), listed && entered);
    }
}

/// A field of every tag, with its own length and others, of bytes that may be lawful, first in the
/// script and behind other fields, cut at each byte and not at all.
fn broken() -> Vec<(String, Vec<u8>)> {
    let mut fields = Script::at(48_000.0);
    fields.frame(10.0, 0.04).advance(7);
    let mut scripts = Vec::new();
    for tag in (0..=15).chain([99, 255]) {
        for stated in [0, 1, 2, 3, 4, 5, 8, 10, 11, 12, 37, 38, 256, 65_535_u16] {
            let [high, low] = stated.to_be_bytes();
            for (before, byte) in [(&[][..], 1), (&fields.0[..], 1), (&fields.0[..], 3)] {
                let mut script = [before, &[tag, high, low]].concat();
                script.resize(script.len() + usize::from(stated).min(FOLLOWING), byte);
                for end in before.len()..=script.len() {
                    let name = format!("tag {tag}, length {stated}, bytes {byte}");
                    scripts.push((name, script[..end].to_vec()));
                }
            }
        }
    }
    scripts
}

/// The listings that the reading has for one in six of these: six seeds in a row have all.
pub fn lines(seed: u64) -> String {
    const ONE_IN: usize = 6;
    let some = broken().into_iter().skip(seed as usize % ONE_IN);
    some.step_by(ONE_IN)
        .map(|(_, script)| listing::<Engine>(0, &script))
        .collect()
}

/// The same fields, with fewer than 256 samples in every advance: what is compared is how a script ends.
fn shorter(mut script: Vec<u8>) -> Vec<u8> {
    let mut at = 0;
    for end in ends(0, &script) {
        if end.tag == ADVANCE {
            script[at + 3..at + 6].fill(0);
        }
        at = end.bytes;
    }
    script
}

/// Where a script's last field begins, each of its bytes, and where it ends. A bad field is a last one
/// too, with some of what follows it.
fn ends_of_last(script: &[u8]) -> RangeInclusive<usize> {
    let ends = ends(0, script);
    let end_of = |fields: usize| match fields {
        0 => 0,
        some => ends[some - 1].bytes,
    };
    let end = script.len().min(end_of(ends.len()) + FOLLOWING);
    end_of(ends.len().saturating_sub(1))..=end
}
