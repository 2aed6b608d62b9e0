//! Which refusals the generated scripts meet, at their own start or at a late one.
use crate::gen::{script, KINDS};
use crate::late;
use crate::original::Engine;
use crate::runner::{run, Answer};

/// All numbers that a script gives: 01's but 5 and 6, for lent lengths and the logs of a mask, with order
/// 3's three in the place of 9.
pub const NUMBERS: [u32; 12] = [1, 2, 3, 4, 7, 8, 10, 11, 12, 14, 15, 16];

const SEEDS: u64 = 10;

/// The numbers that no script meets, of the first seeds from a base on.
pub fn missing(base: u64) -> Vec<String> {
    let mut missing = NUMBERS.to_vec();
    for n in 0..SEEDS {
        let seed = base.wrapping_add(n);
        for kind in KINDS {
            if missing.is_empty() {
                return Vec::new();
            }
            let script = script(seed, kind);
            for start in [0, late::start(seed, &script)] {
                let ended = run(start, &script, |_, answer, _: &Engine| {
                    if let Answer::Refused(number) = answer {
                        missing.retain(|n| n != number);
                    }
                });
                if let Err(bad) = ended {
                    missing.retain(|n| *n != bad.number);
                }
            }
        }
    }
    missing.iter().map(u32::to_string).collect()
}
