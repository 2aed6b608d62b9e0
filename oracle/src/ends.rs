//! Where the fields of a script end, and what a run up to there costs.
use crate::field::{read, Field};
use crate::runner::{rate_passes, SAMPLE_LIMIT, SCRIPT_LIMIT};

#[derive(Clone, Copy)]
pub struct End {
    /// The field's tag.
    pub tag: u8,
    /// The bytes up to the end of the field, which are a script themselves.
    pub bytes: usize,
    /// Samples so far, and ten for each field: what it leaves is compared.
    pub steps: u64,
}

/// A field counts as so many samples.
const FIELD: u64 = 10;

/// The ends of the fields that a run comes to, on an engine that has counted `start` samples. Read, and
/// not run: most of a long script may lie behind the limit.
pub fn ends(start: u64, script: &[u8]) -> Vec<End> {
    let mut ends = Vec::new();
    if script.len() > SCRIPT_LIMIT {
        return ends;
    }
    let (mut rest, mut counted, mut steps) = (script, start, 0);
    while let Ok((field, next)) = read(rest, ends.is_empty()) {
        steps += FIELD;
        match field {
            Field::Rate(rate) if !rate_passes(rate) => break,
            Field::Advance(samples) if counted + u64::from(samples) <= SAMPLE_LIMIT => {
                counted += u64::from(samples);
                steps += u64::from(samples);
            }
            Field::Reset => counted = 0,
            _ => {}
        }
        ends.push(End {
            tag: rest[0],
            bytes: script.len() - next.len(),
            steps,
        });
        rest = next;
    }
    ends
}

/// The ends that a run of at most `limit` steps comes to.
pub fn up_to(limit: u64, ends: &[End]) -> &[End] {
    &ends[..ends.partition_point(|end| end.steps <= limit)]
}
