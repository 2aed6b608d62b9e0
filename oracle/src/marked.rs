//! What 01 states outright, asked of the original: the twelve marked examples, the sample script,
//! and SplitMix64's published outputs. And what 02 states of the writer and of records, asked of the
//! encoder and of the reading.
use crate::encoder::{encoded, rewritten};
use crate::engine::Particles;
use crate::field::{Field, Settings};
use crate::gen::script::Script;
use crate::gen::values::settings;
use crate::original::{open, Engine};
use crate::runner::run;
use crate::tenths::{table, tenth};
use crate::value::Value;
use crate::{listing, ours};

const SAMPLE: [u8; 23] = [
    0x01, 0x00, 0x04, 0x47, 0x3b, 0x80, 0x00, 0x09, 0x00, 0x08, 0, 0, 0, 0, 0, 0, 0, 0, 0x04, 0x00,
    0x02, 0x01, 0x00,
];

const SAMPLE_LISTING: &str = "\
frame 2 sample 0 ms 0 active 0 births 0 dropped 0 hash 0000000000000000 activity 00000000
field 3 refused 2
end 3
";

/// The first outputs of the reference from the state 1234567.
const PUBLISHED: [u64; 5] = [
    6_457_827_717_110_365_317,
    3_203_168_211_198_807_973,
    9_817_491_932_198_370_423,
    4_593_380_528_125_082_431,
    16_408_922_859_458_223_821,
];

/// Each claim and whether it holds.
pub fn marked() -> Vec<(&'static str, bool)> {
    let every = |want: [u8; 3], limit, ratio| {
        (0..1_000).all(|index| open::select_partials(index, [1.0; 24], limit, ratio) == want)
    };
    let window = [10.0, 2.0, 1.0];
    let mut state = 1_234_567_u64;
    let published = PUBLISHED.iter().all(|want| {
        state = state.wrapping_add(0x9e37_79b9_7f4a_7c15);
        open::mix(state) == *want
    });
    vec![
        ("1: mix(0) = 0", open::mix(0) == 0),
        (
            "2: the key of lane 2, index 5",
            open::sprinkle_key(2, 5) == (1 << 62) + (1 << 60) + 5,
        ),
        ("3: taper(0.25) = 0.15625", open::taper(0.25) == 0.15625),
        ("4: taper(0.5) = 0.5", open::taper(0.5) == 0.5),
        ("5: phase -0.25 gives 0.75", phase_of(-0.25) == 0.75),
        (
            "6: phase -2^-30 gives 1.0",
            phase_of(-1.0 / (1 << 30) as f32) == 1.0,
        ),
        (
            "7: seek to -2^-60 gives phase 10^9",
            sought(-1.0 / (1_u64 << 60) as f64) == 1e9,
        ),
        ("8: max_ratio 1 gives [0, 0, 0]", every([0, 0, 0], 24, 1.0)),
        ("9: ratio 1.5 gives [1, 0, 0]", every([1, 0, 0], 24, 1.5)),
        (
            "10: the window at 9 gives 0.5",
            open::openness(window, 9.0) == 0.5,
        ),
        (
            "11: the window at 12 gives 0",
            open::openness(window, 12.0) == 0.0,
        ),
        ("12: sqrt(2.25) = 1.5", ours::sqrt(2.25) == 1.5),
        ("SplitMix64's published outputs", published),
        (
            "01's sample script",
            listing::listing::<Engine>(0, &SAMPLE) == SAMPLE_LISTING,
        ),
        ("10^9 cycles forward seek to 0", sought(1e9) == 0.0),
        ("01's sample script written again", written_again(&SAMPLE)),
        (
            "a NaN is written as 7FC00000",
            encoded(&Field::Rate(f32::from_bits(0xff80_0001)))[3..] == [0x7f, 0xc0, 0, 0],
        ),
        (
            "a NaN in a seek is written as 7FF8000000000000",
            encoded(&Field::Seek(f64::from_bits(u64::MAX)))[3..] == [0x7f, 0xf8, 0, 0, 0, 0, 0, 0],
        ),
        (
            "the table starts at 32,768, ends at 33 and has 601 entries",
            (table()[0], table()[600], table().len()) == (32_768, 33, 601),
        ),
        (
            "halves of a tenth go upward",
            [0.25, 0.75, 59.75].map(tenth) == [Some(3), Some(8), Some(598)],
        ),
    ]
}

/// Whether the reading's fields of a script are encoded as the script.
fn written_again(script: &[u8]) -> bool {
    let mut bytes = vec![0; script.len()];
    rewritten(script, &mut bytes) == script.len() && bytes == script
}

/// One float of the state after a script.
fn state_after(script: &Script, wanted: &str) -> f64 {
    let mut found = f64::NAN;
    if let Ok(ended) = run::<Engine>(0, &script.0, |_, _, _| {}) {
        ended.engine.visit(&mut |name, _, _, value| {
            if name == wanted {
                found = match value {
                    Value::Single(x) => x.into(),
                    Value::Double(x) => x,
                    _ => f64::NAN,
                };
            }
        });
    }
    found
}

fn phase_of(phase: f32) -> f64 {
    let mut script = Script::at(48_000.0);
    script.configure(&Settings {
        phase,
        ..settings()
    });
    state_after(&script, "config.phase")
}

fn sought(cycles: f64) -> f64 {
    let mut script = Script::at(48_000.0);
    script.seek(cycles);
    state_after(&script, "phase")
}
