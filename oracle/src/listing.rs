//! 01's listing: one line for each accepted frame and each refusal, then `end` or `bad`. The
//! milliseconds, and the place of what is bad, are 02's.
use crate::engine::Particles;
use crate::field::{read, Field};
use crate::milliseconds::milliseconds;
use crate::runner::{run, Answer, Bad, Ended};
use crate::value::bits32;
use std::fmt::Write;

pub fn listing<E: Particles>(start: u64, script: &[u8]) -> String {
    let mut text = String::new();
    let rate = rate(script);
    let ended = run(start, script, |field, answer, engine: &E| match answer {
        Answer::Framed(frame) => {
            let sample = engine.elapsed_samples();
            let (births, dropped, hash) = engine.tally();
            writeln!(
                text,
                "frame {field} sample {sample} ms {} active {} births {births} dropped {dropped} \
                 hash {hash:016x} activity {:08x}",
                milliseconds(sample, rate),
                engine.active_count(),
                bits32(frame.activity),
            )
            .unwrap();
        }
        Answer::Refused(number) => writeln!(text, "field {field} refused {number}").unwrap(),
        _ => {}
    });
    match ended {
        Ok(Ended { count, .. }) => writeln!(text, "end {count}").unwrap(),
        Err(Bad {
            field,
            number,
            place,
        }) => writeln!(text, "field {field} bad {number} at {place}").unwrap(),
    }
    text
}

/// The script's rate. Where it has none no frame is printed.
fn rate(script: &[u8]) -> f32 {
    match read(script, true) {
        Ok((Field::Rate(rate), _)) => rate,
        _ => 0.0,
    }
}
