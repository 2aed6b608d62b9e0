//! 01's refusals around the original engine, and the run of a whole script.
use crate::engine::{Frame, Particles};
use crate::field::{read, Field, HEADER_CUT, LENGTH};

/// What a call answers. `Taken` is also a reset or an advance: every call that refuses nothing.
pub enum Answer {
    Taken,
    Refused(u32),
    Born,
    NotEligible,
    Dropped,
    Framed(Box<Frame>),
}

impl Answer {
    /// A trigger's answer by number; 0 where it is refused, and for any other call.
    pub fn told(&self) -> u8 {
        match self {
            Answer::Born => 1,
            Answer::NotEligible => 2,
            Answer::Dropped => 3,
            Answer::Taken | Answer::Refused(_) | Answer::Framed(_) => 0,
        }
    }
}

/// The script stops at field `field` with the number `number`, broken at byte `place`.
pub struct Bad {
    pub field: usize,
    pub number: u32,
    pub place: usize,
}

impl Bad {
    /// Order 3: the place is that of the field's tag, at which `rest` begins, or the end of the script
    /// where the header is cut. What refuses a script as a whole finds all of it left.
    fn new(script: &[u8], rest: &[u8], field: usize, number: u32) -> Self {
        let place = match number {
            HEADER_CUT => script.len(),
            _ => script.len() - rest.len(),
        };
        Bad {
            field,
            number,
            place,
        }
    }
}

pub const SCRIPT_LIMIT: usize = 60_000;
pub const SAMPLE_LIMIT: u64 = 1 << 40;
pub const SLOTS: u16 = 256;
pub const HOP_LIMIT: u32 = 16_384;

/// 01: 8,000 and 384,000 pass; the next floats outside do not, nor does what isn't finite.
pub fn rate_passes(rate: f32) -> bool {
    (8_000.0..=384_000.0).contains(&rate)
}

/// A script that was read to its end: how many fields it has, and the engine it leaves.
pub struct Ended<E> {
    pub count: usize,
    pub engine: E,
}

/// Runs a script on an engine that has counted `start` samples and is new otherwise, and shows
/// every field's number, answer and engine.
pub fn run<E: Particles>(
    start: u64,
    script: &[u8],
    mut see: impl FnMut(usize, &Answer, &E),
) -> Result<Ended<E>, Bad> {
    if script.len() > SCRIPT_LIMIT {
        return Err(Bad::new(script, script, 0, LENGTH));
    }
    let (first, mut rest) = read(script, true).map_err(|n| Bad::new(script, script, 1, n))?;
    let Field::Rate(rate) = first else {
        unreachable!("the reader takes a rate first")
    };
    if !rate_passes(rate) {
        return Err(Bad::new(script, script, 1, 1));
    }
    let mut engine = E::new(rate);
    engine.skip(start);
    let mut count = 1;
    see(count, &Answer::Taken, &engine);
    while !rest.is_empty() {
        count += 1;
        let (field, next) = read(rest, false).map_err(|n| Bad::new(script, rest, count, n))?;
        rest = next;
        let answer = call(&mut engine, field);
        see(count, &answer, &engine);
    }
    Ok(Ended { count, engine })
}

/// One call on the engine, refused where 01 says so.
pub fn call<E: Particles>(engine: &mut E, field: Field) -> Answer {
    match field {
        Field::Rate(_) => unreachable!("the reader takes no second rate"),
        Field::Configure(settings) => {
            if settings.hop_samples > HOP_LIMIT {
                return Answer::Refused(3);
            }
            engine.configure(&settings);
        }
        // Refusal 2: `trigger` alone has used one index.
        Field::Trigger(slot) if slot >= SLOTS => {
            engine.reserve_trigger();
            return Answer::Refused(2);
        }
        Field::Source(slot, ..)
        | Field::Retire(slot)
        | Field::Release(slot)
        | Field::Reserved(slot, _)
            if slot >= SLOTS =>
        {
            return Answer::Refused(2)
        }
        Field::Source(slot, frequency_hz, strength, eligible) => {
            engine.set_source(slot.into(), frequency_hz, strength, eligible);
        }
        Field::Retire(slot) => engine.retire_source(slot.into()),
        Field::Release(slot) => engine.release_source(slot.into()),
        Field::Trigger(slot) => return triggered(engine, |e| e.trigger(slot.into())),
        Field::Reserved(slot, index) => {
            return triggered(engine, |e| e.trigger_reserved(slot.into(), index))
        }
        Field::Seek(cycles) => engine.seek(cycles),
        Field::Advance(samples) => {
            if engine.elapsed_samples() + u64::from(samples) > SAMPLE_LIMIT {
                return Answer::Refused(4);
            }
            advance(engine, samples);
        }
        Field::Frame(bin_hz, elapsed) => {
            // Minus zero passes.
            if !(elapsed >= 0.0 && elapsed.is_finite()) {
                return Answer::Refused(7);
            }
            return Answer::Framed(Box::new(engine.frame(bin_hz, elapsed)));
        }
        Field::NoteInput(present) => engine.set_note_input_present(present),
        Field::Reset => engine.reset(),
        Field::Reserve => {
            engine.reserve_trigger();
        }
    }
    Answer::Taken
}

/// An advance that is longer than this is looked at after each so many samples.
const LONG: u32 = 1 << 16;

/// Steps through the samples, until one changes nothing but the count: a step reads the count only
/// where it tries a birth, which leaves a mark, so all that follow are the same and are skipped.
pub fn advance<E: Particles>(engine: &mut E, samples: u32) {
    let mut left = samples;
    while left > LONG {
        let before = uncounted(engine);
        engine.advance(1);
        left -= 1;
        if uncounted(engine) == before {
            engine.skip(left.into());
            return;
        }
        engine.advance(LONG as usize);
        left -= LONG;
    }
    engine.advance(left as usize);
}

/// The whole state but the count of samples.
fn uncounted<E: Particles>(engine: &E) -> Vec<u64> {
    let mut codes = Vec::new();
    engine.visit(&mut |name, _, _, value| {
        if name != "sample" {
            codes.push(value.code());
        }
    });
    codes
}

/// A trigger's answer, read off the counters, which the original's own call leaves behind.
fn triggered<E: Particles>(engine: &mut E, act: impl FnOnce(&mut E)) -> Answer {
    let (births, dropped, _) = engine.tally();
    act(engine);
    let (births_after, dropped_after, _) = engine.tally();
    if births_after != births {
        Answer::Born
    } else if dropped_after != dropped {
        Answer::Dropped
    } else {
        Answer::NotEligible
    }
}
