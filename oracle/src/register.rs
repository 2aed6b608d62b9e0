//! Register draws that land exactly on a sum of weights: where 000's `target < 0.0` meets a zero.
use crate::draws::Draws;
use crate::gen::index_with;
use crate::gen::values::hz;
use crate::original::open::register_probability;
use crate::ours;

pub struct Tie {
    pub index: u64,
    pub root_hz: f32,
}

/// Some ties for an upward register at a top of 20 kHz.
pub fn ties(d: &mut Draws, roots: usize) -> Vec<Tie> {
    let mut found = Vec::new();
    for _ in 0..roots {
        let root_hz = hz(d);
        let weights = weights(root_hz);
        let total: f32 = weights.iter().sum();
        let mut reach = 0.0;
        for weight in &weights[..weights.len() - 1] {
            reach += weight;
            let near = (reach / total * 16_777_216.0) as u64;
            for top in near.saturating_sub(4)..near + 5 {
                if meets_zero(top as f32 / 16_777_216.0 * total, &weights) {
                    let index = index_with(d, 2, top);
                    found.push(Tie { index, root_hz });
                }
            }
        }
    }
    found
}

/// The weights of the octaves of a root, for an upward tilt.
fn weights(root_hz: f32) -> Vec<f32> {
    let root_log = ours::log2(root_hz);
    let first = (ours::log2(20.0) - root_log).ceil();
    let last = (ours::log2(4_186.01) - root_log).floor();
    let count = (last - first + 1.0) as u16;
    let tilt = |i: u16| 0.5 + f32::from(i) / f32::from(count - 1);
    let octave = |i: u16| register_probability(root_log + first + f32::from(i));
    (0..count).map(|i| octave(i) * tilt(i)).collect()
}

fn meets_zero(mut target: f32, weights: &[f32]) -> bool {
    weights.iter().any(|weight| {
        target -= weight;
        target == 0.0
    })
}
