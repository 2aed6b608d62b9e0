//! Scripts by seed and kind.
mod crowded;
mod damaged;
mod odd;
mod ordinary;
pub mod script;
mod ties;
pub mod values;

use crate::draws::Draws;
use crate::field::{read, Field};
pub use ties::{index_with, top_of};

pub struct Kind {
    pub name: &'static str,
    pub make: fn(&mut Draws) -> Vec<u8>,
    pub what: &'static str,
}

macro_rules! kinds {
    ($($name:literal $make:path, $what:literal;)*) => {
        pub const KINDS: &[Kind] = &[$(Kind { name: $name, make: $make, what: $what }),*];
    };
}

kinds! {
    "sprinkle" ordinary::sprinkle, "Sprinkle with no notes";
    "cloud" ordinary::cloud, "Cloud with no notes";
    "notes" ordinary::notes, "a few notes that come, change and stop";
    "switches" ordinary::switches, "all settings change in the middle";
    "one-switch" ordinary::one_switch, "one setting changes at a time";
    "unscheduled" ordinary::unscheduled, "the clock stands, triggers alone give births";
    "resets" ordinary::resets, "resets in the middle";
    "long" ordinary::long, "long advances beside short ones";
    "pool" crowded::pool, "more particles than places";
    "attempts" crowded::attempts, "more than 64 attempts between frames";
    "all-sources" crowded::all_sources, "all 256 sources";
    "retirements" crowded::retirements, "retirements twice and by every cause";
    "reserved" crowded::reserved, "reserved indices early, late, twice, from all of u64";
    "seeks" odd::seeks, "seeks: negative, huge, NaN, minus zero";
    "settings" odd::settings_mended, "settings that must be mended";
    "odd-sources" odd::odd_sources, "sources with NaN, zeros, subnormals, ineligible";
    "frames" odd::frames, "frames with odd bin widths and elapsed times";
    "rates" odd::rates, "rates at both ends and not whole";
    "anything" odd::anything, "any lawful field after any other";
    "draw-ties" ties::draw_ties, "draws exactly on a limit";
    "ratio-ties" ties::ratio_ties, "harmonics exactly on the ratio limit";
    "age-ties" ties::age_ties, "ages and retirements exactly at their end";
    "start-ties" ties::start_ties, "starts exactly on a sample";
    "seek-ties" ties::seek_ties, "seeks exactly on an opportunity";
    "count-ties" ties::count_ties, "group counts drawn exactly on a limit";
    "refused" damaged::refused, "every engine refusal that a start at 0 can meet";
    "bad" damaged::bad, "every bad number from field 2 on";
    "first-field" damaged::first_field, "what stands first";
    "sizes" damaged::sizes, "scripts around 60,000 bytes";
    "damaged" damaged::damaged, "good scripts with bytes harmed";
}

pub fn script(seed: u64, kind: &Kind) -> Vec<u8> {
    (kind.make)(&mut Draws::new(seed, kind.name))
}

/// The same script with ten times the samples in every advance, as far as it can be read.
pub fn longer(script: &[u8]) -> Vec<u8> {
    let mut longer = script.to_vec();
    let mut rest = script;
    while let Ok((field, next)) = read(rest, rest.len() == script.len()) {
        if let Field::Advance(samples) = field {
            let end = script.len() - next.len();
            longer[end - 4..end].copy_from_slice(&samples.saturating_mul(10).to_be_bytes());
        }
        rest = next;
    }
    longer
}

pub fn named(name: &str) -> Option<&'static Kind> {
    KINDS.iter().find(|kind| kind.name == name)
}
