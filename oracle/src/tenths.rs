//! 02, order 5: the tenth that an attenuation is taken to, and the table of 601 entries, both in whole
//! numbers.
use crate::whole::{fraction, Whole};
use std::sync::OnceLock;

/// The tenths of 60 decibels.
pub const LAST: u32 = 600;

/// The n with 2n - 1 <= 20a < 2n + 1, a held to 0 to 60: what stands before the point of 10a + 1/2.
/// A NaN has none.
pub fn tenth(a: f32) -> Option<u32> {
    if a.is_nan() {
        return None;
    }
    if a <= 0.0 {
        return Some(0);
    }
    if a >= 60.0 {
        return Some(LAST);
    }
    let (digits, places) = fraction(a);
    // Below 2^-40 nothing comes near half a tenth.
    if places > 64 {
        return Some(0);
    }
    let one = 1_u128 << places;
    Some(((20 * digits + one) / (2 * one)) as u32)
}

/// Both sides of 02's rule: whether (2e - 1)^200 * 10^n is below 65,536^200, and that below
/// (2e + 1)^200 * 10^n. An entry has both.
fn sides(e: u64, ten: &Whole, unit: &Whole) -> (bool, bool) {
    let scaled = |odd| Whole::of(odd).power(200).times(ten);
    (
        scaled((2 * e).saturating_sub(1)) < *unit,
        *unit < scaled(2 * e + 1),
    )
}

fn unit() -> Whole {
    Whole::of(65_536).power(200)
}

/// The least number that has the upper side, by halving.
fn entry(n: u32) -> u16 {
    let (ten, unit) = (Whole::of(10).power(n), unit());
    let (mut low, mut high) = (0, 65_535);
    while low < high {
        let middle = (low + high) / 2;
        if sides(middle, &ten, &unit).1 {
            high = middle;
        } else {
            low = middle + 1;
        }
    }
    low as u16
}

pub fn table() -> &'static [u16] {
    static TABLE: OnceLock<Vec<u16>> = OnceLock::new();
    TABLE.get_or_init(|| (0..=LAST).map(entry).collect())
}

/// The gain of an attenuation that is a number.
pub fn gain(a: f32) -> Option<u16> {
    Some(table()[tenth(a)? as usize])
}

/// The table never rises.
pub fn is_entry(e: u16) -> bool {
    table().binary_search_by(|entry| e.cmp(entry)).is_ok()
}

/// What the table fails of 02: each entry has both sides of the rule and its neighbours don't, it
/// starts at 32,768, ends at 33 and never rises.
pub fn failing() -> Vec<String> {
    let (table, unit) = (table(), unit());
    let mut failing = Vec::new();
    for (n, e) in (0..).zip(table) {
        let ten = Whole::of(10).power(n);
        let kept = |e: u64| sides(e, &ten, &unit) == (true, true);
        let e = u64::from(*e);
        if !kept(e) || kept(e - 1) || kept(e + 1) {
            failing.push(format!("entry {n} is not the only one of the rule"));
        }
    }
    let falls = table.windows(2).all(|pair| pair[0] >= pair[1]);
    if (table[0], table[LAST as usize], falls) != (32_768, 33, true) {
        failing.push("the table's ends and order".into());
    }
    failing
}

/// Whether n is a's tenth, asked of 02's two sides: 2n - 1 <= 20a < 2n + 1 with a as a fraction.
pub fn is_tenth(n: u32, a: f32) -> bool {
    let held = a.clamp(0.0, 60.0);
    let (digits, one) = match held.to_bits() {
        0 | 0x8000_0000 => (Whole::of(0), Whole::of(1)),
        _ => {
            let (digits, places) = fraction(held);
            (Whole::of(digits as u64), Whole::of(2).power(places))
        }
    };
    let twenty = digits.times(&Whole::of(20));
    let below = |odd: u64| Whole::of(odd).times(&one);
    let n = u64::from(n);
    (n == 0 || below(2 * n - 1) <= twenty) && twenty < below(2 * n + 1)
}
