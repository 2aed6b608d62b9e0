//! Arguments at which a draw or a number lies exactly on a limit: random bits never meet them.
use crate::draws::Draws;
use crate::gen::{index_with, top_of};
use crate::register;

/// The index of a reserved trigger whose octave's walk falls off its end, as the birth has it.
const FALLS_OFF: u64 = 7_395_516 ^ 1 << 63;

fn word(x: f32) -> u64 {
    x.to_bits().into()
}

/// The highest frequency at a lawful rate, often at an end of what it may be, or of Sprinkle's range.
fn highest(d: &mut Draws) -> f32 {
    let low = d.between(4_000.0, 4_400.0);
    let any = d.between(4_000.0, 20_000.0);
    d.pick(&[4_000.0, 4_000.000_2, 4_186.01, 20_000.0, low, any])
}

/// Index and highest frequency.
pub fn tops(base: u64) -> Vec<Vec<u64>> {
    let mut d = Draws::new(base, "tops");
    (0..200_000)
        .map(|_| vec![d.word(), word(highest(&mut d))])
        .collect()
}

/// Index, root, top and direction: targets that meet a sum of weights, and roots that lie whole
/// octaves from an end of the range, or beside that, where the count of octaves changes.
pub fn registers(base: u64) -> Vec<Vec<u64>> {
    let mut d = Draws::new(base, "registers");
    let mut list: Vec<Vec<u64>> = register::ties(&mut d, 2_000)
        .iter()
        .map(|tie| vec![tie.index, word(tie.root_hz), word(20_000.0), 0])
        .collect();
    for n in 0..20_000_u32 {
        let root_hz = 20.0 + n as f32 * 0.5;
        list.push(vec![
            FALLS_OFF,
            word(root_hz),
            word(20_000.0),
            u64::from(n % 3),
        ]);
    }
    for _ in 0..200_000 {
        let top = highest(&mut d);
        let end = d.pick(&[20.0, top.min(4_186.01)]);
        let root_hz = end * 2_f32.powi(d.below(250) as i32 - 130);
        let beside = root_hz.to_bits() + d.below(3) as u32 - 1;
        list.push(vec![d.word(), beside.into(), word(top), d.below(3)]);
    }
    list
}

/// Index, seed of the weights, limit and ratio: counts drawn at 0.80 and 0.97 and beside them, and
/// ratios that are harmonics.
pub fn partials(base: u64) -> Vec<Vec<u64>> {
    let mut d = Draws::new(base, "partials");
    let mut list = Vec::new();
    for n in 0..6_000_u64 {
        let limit = [0.80, 0.97][n as usize % 2];
        let index = index_with(&mut d, 12, top_of(limit) + n / 2 % 3 - 1);
        let ratio = [25.0, 1.0 + (n % 24) as f32][n as usize / 6 % 2];
        list.push(vec![index, d.word(), 1 + n % 25, word(ratio)]);
    }
    list
}

/// Centre, radius, amplitude and log: places inside a window, at its ends and beside them, and of a
/// radius of 0 and below.
pub fn windows(base: u64) -> Vec<Vec<u64>> {
    let mut d = Draws::new(base, "windows");
    let mut list = Vec::new();
    for n in 0..200_000_u64 {
        let (centre, radius) = (d.between(3.0, 15.0), d.between(-0.1, 4.0));
        let log = match n % 4 {
            0 => centre - radius,
            1 => centre + radius,
            2 => centre + radius * d.between(-1.1, 1.1),
            _ => d.pick(&[centre, 10.0, 12.0]),
        };
        let (amplitude, log) = (d.between(0.0, 1.0), word(log) ^ u64::from(n % 5 == 4));
        list.push(vec![word(centre), word(radius), word(amplitude), log]);
    }
    list
}
