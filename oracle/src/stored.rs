//! The stored cases of `script_vectors`: scripts with the original's listings and last frames, in a
//! form that the program reads with no Rust at hand.
//!
//! A line of the list is `listing KIND SEED BYTES`, `late KIND SEED BYTES` (from the script's late
//! start) or `frame KIND SEED BYTES`, for the first BYTES bytes of a generated script; `example NAME`,
//! for a script of a folder; or `milliseconds RATE SAMPLES MS`, for a frame after so many samples, whose
//! milliseconds are given and must be the listing's. A case is a header, the script and, where it is
//! asked for, the listing. The header gives a name, the seed and the script's length; for a listing 0,
//! its length and the start; for a frame 1, the entry's answer and the digest of the 2,308 bytes. The
//! script has a field to a line: how many bytes more it gives by repetition, how many it has, and they.
use crate::bytes::{last_frame, SIZE};
use crate::digest::Digest;
use crate::gen::script::Script;
use crate::listing::listing;
use crate::original::Engine;
use crate::{gen, late};
use std::fmt::Write;
use std::fs;
use std::path::Path;

/// A longer field goes on in the next line, since two digits count a line's bytes.
const LINE: usize = 255;

pub fn cases(folder: &Path, list: &str) -> Option<String> {
    let mut out = String::new();
    for line in list.lines() {
        let words: Vec<&str> = line.split(' ').collect();
        match words[..] {
            ["example", name] => {
                let script = fs::read(folder.join(name).with_extension("script")).ok()?;
                listed(&mut out, &format!("ex-{name}"), 0, 0, &script);
            }
            ["milliseconds", rate, samples, ms] => {
                let mut script = Script::at(rate.parse().ok()?);
                script.frame(8.0, 0.04);
                let line = format!(" sample {samples} ms {ms} ");
                let samples = samples.parse().ok()?;
                if !listing::<Engine>(samples, &script.0).contains(&line) {
                    return None;
                }
                listed(&mut out, words[0], 0, samples, &script.0);
            }
            [what, kind, seed, bytes] => {
                let seed = seed.parse().ok()?;
                let whole = gen::script(seed, gen::named(kind)?);
                let script = whole.get(..bytes.parse().ok()?)?;
                match what {
                    "listing" => listed(&mut out, kind, seed, 0, script),
                    "late" => listed(&mut out, kind, seed, late::start(seed, &whole), script),
                    "frame" => framed(&mut out, kind, seed, script),
                    _ => return None,
                }
            }
            _ => return None,
        }
    }
    Some(out)
}

fn listed(out: &mut String, name: &str, seed: u64, start: u64, script: &[u8]) {
    let text = listing::<Engine>(start, script);
    let lengths = [script.len() as u64, text.len() as u64];
    header(out, 0, name, [seed, lengths[0], lengths[1], start]);
    fields(out, script);
    out.push_str(&text);
}

fn framed(out: &mut String, name: &str, seed: u64, script: &[u8]) {
    let mut lent = [0; SIZE];
    let answer = last_frame::<Engine>(script, &mut lent).into();
    let digest = Digest::text(&lent);
    header(out, 1, name, [seed, script.len() as u64, answer, digest]);
    fields(out, script);
}

fn header(out: &mut String, what: u8, name: &str, numbers: [u64; 4]) {
    let [a, b, c, d] = numbers;
    writeln!(
        out,
        "{what:02x} {name:<12} {a:016x} {b:016x} {c:016x} {d:016x}"
    )
    .unwrap();
}

fn fields(out: &mut String, script: &[u8]) {
    let mut rest = script;
    while !rest.is_empty() {
        let length = match rest {
            [_, high, low, ..] => 3 + usize::from(u16::from_be_bytes([*high, *low])),
            _ => rest.len(),
        };
        let (field, after) = rest.split_at(length.min(LINE).min(rest.len()));
        let again = after
            .chunks_exact(field.len())
            .take_while(|next| *next == field);
        let more = again.count() * field.len();
        write!(out, "{more:04x} {:02x} ", field.len()).unwrap();
        field.iter().for_each(|b| write!(out, "{b:02x}").unwrap());
        out.push('\n');
        rest = &after[more..];
    }
}
