//! Short numbers for long answers: what `oracle digest` prints and mutants are judged by.
use crate::bytes::{encode, last_frame, SIZE};
use crate::draws::mixed;
use crate::engine::Particles;
use crate::gen::{script, KINDS};
use crate::original::Engine;
use crate::records;
use crate::runner::{run, Answer};
use crate::{calls, cuts, late, listing, masks, rates, recorded};
use std::io::{self, Write};

#[derive(Default)]
pub struct Digest(pub u64);

impl Digest {
    pub fn word(&mut self, word: u64) {
        self.0 = mixed(self.0.rotate_left(7) ^ word).wrapping_add(0x9e37_79b9_7f4a_7c15);
    }
    pub fn text(bytes: &[u8]) -> u64 {
        let mut digest = Digest::default();
        bytes.iter().for_each(|b| digest.word(u64::from(*b)));
        digest.0
    }
}

/// The whole state after every field of a script, every frame and every trigger's answer, as one number.
pub fn state_digest<E: Particles>(start: u64, script: &[u8]) -> u64 {
    let mut digest = Digest::default();
    let ended = run(start, script, |field, answer, engine: &E| {
        digest.word(field as u64);
        engine.visit(&mut |_, _, _, value| digest.word(value.code()));
        digest.word(u64::from(answer.told()));
        if let Answer::Framed(frame) = answer {
            digest.word(Digest::text(&encode(frame)));
        }
    });
    digest.word(match ended {
        Ok(ended) => ended.count as u64,
        Err(bad) => u64::from(bad.number) << 32 | bad.place as u64,
    });
    digest.0
}

/// The mask file of a script, at a small size, as one number.
fn file_digest(script: &[u8], depth_db: f32) -> u64 {
    const ROOM: usize = 1 << 18;
    let (mut out, mut at) = (vec![0; ROOM], 0);
    let answer = records::file::<Engine>(script, 16, depth_db, &mut out, &mut at);
    Digest::text(&out[..at as usize]).wrapping_add(answer.into())
}

/// A line for each of `seeds` scripts of every kind, and for each block of single calls.
pub fn digest(seeds: u64, out: &mut impl Write) -> io::Result<()> {
    for seed in 0..seeds {
        for kind in KINDS {
            let script = script(seed, kind);
            let mut lent = [0; SIZE];
            let answer = last_frame::<Engine>(&script, &mut lent);
            writeln!(
                out,
                "{} {seed} listing {:016x} bytes {answer} {:016x} state {:016x}",
                kind.name,
                Digest::text(listing::listing::<Engine>(0, &script).as_bytes()),
                Digest::text(&lent),
                state_digest::<Engine>(0, &script),
            )?;
            writeln!(
                out,
                "{} {seed} masks {:016x} {:016x}",
                kind.name,
                file_digest(&script, 12.5),
                file_digest(&script, f32::NAN),
            )?;
            let start = late::start(seed, &script);
            writeln!(
                out,
                "{} {seed} from {start} listing {:016x} state {:016x}",
                kind.name,
                Digest::text(listing::listing::<Engine>(start, &script).as_bytes()),
                state_digest::<Engine>(start, &script),
            )?;
        }
        for (name, text) in [
            ("mask", masks::mask_lines(seed, 200).0),
            ("bins", masks::bin_lines(seed, 100)),
            ("attenuation", masks::attenuation_lines(seed, 200)),
            ("records", recorded::lines(seed, 200)),
            ("milliseconds", rates::lines(seed, 200)),
            ("cuts", cuts::lines(seed)),
            ("calls", calls::lines(seed, 2_000)),
        ] {
            writeln!(out, "{name} {seed} {:016x}", Digest::text(text.as_bytes()))?;
        }
    }
    Ok(())
}
