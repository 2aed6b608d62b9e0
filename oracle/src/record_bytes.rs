//! Bytes to be read as records of mask files, by seed: records, and what nearly is one.
use crate::draws::Draws;
use crate::records::{encoded, BINS, HEAD};
use crate::tenths::table;

/// Bytes to be read, for so many places.
pub struct Lent {
    pub bytes: Vec<u8>,
    pub places: usize,
}

/// A record of so many drawn entries.
fn record(count: usize, d: &mut Draws) -> Vec<u8> {
    let entries: Vec<u16> = (0..count).map(|_| d.pick(table())).collect();
    encoded(d.word(), &entries)
}

/// Bytes that are a record and bytes that nearly are: every number in the place of an entry, every byte
/// in every place of a head, cuts at every place, counts past the limits with all their bytes, records
/// behind one another, and places too few.
pub fn nearly(base: u64) -> Vec<Lent> {
    let mut d = Draws::new(base, "damage");
    let mut all = Vec::new();
    let mut add = |bytes: Vec<u8>, places| all.push(Lent { bytes, places });
    for entry in 0..=u16::MAX {
        add(encoded(1, &[entry]), 1);
    }
    for count in [1, 2, 5, 129] {
        let bytes = record(count, &mut d);
        for at in 0..HEAD {
            for byte in 0..=u8::MAX {
                let mut changed = bytes.clone();
                changed[at] = byte;
                add(changed, count);
            }
        }
        for end in 0..=bytes.len() {
            add(bytes[..end].to_vec(), count);
        }
        for places in 0..count + 3 {
            add(bytes.clone(), places);
            // What is no record is told before what has no place.
            let mut wrong = bytes.clone();
            wrong[HEAD + 2 * (count - 1)] = 0xff;
            add(wrong, places);
        }
    }
    for count in [0, 1, BINS - 1, BINS, BINS + 1, 32_767] {
        let bytes = record(count, &mut d);
        let whole = bytes.len();
        for places in [count, count.saturating_sub(1), 40_000] {
            add(bytes.clone(), places);
        }
        add(bytes[..whole - 1].to_vec(), count);
        add([bytes, vec![0; 5]].concat(), count);
    }
    let pair = [record(3, &mut d), record(4, &mut d)].concat();
    for start in 0..=pair.len() {
        add(pair[start..].to_vec(), 4);
    }
    // The fields in the other order.
    let first = record(2, &mut d);
    add([&first[13..], &first[..13]].concat(), 2);
    all
}

/// A record with a few drawn bytes changed, longer or shorter by some.
pub fn damaged(d: &mut Draws) -> Lent {
    let count = match d.below(8) {
        0 => d.among(1, 600) as usize,
        _ => d.among(1, 12) as usize,
    };
    let mut bytes = record(count, d);
    for _ in 0..d.below(3) {
        let at = d.below(bytes.len() as u64) as usize;
        match d.below(3) {
            0 => bytes[at] ^= 1 << d.below(8),
            1 => bytes[at] = d.word() as u8,
            _ => {
                let entry = d.pick(table()).to_be_bytes();
                let at = HEAD + 2 * d.below(count as u64) as usize;
                bytes[at..at + 2].copy_from_slice(&entry);
            }
        }
    }
    match d.below(6) {
        0 => bytes.truncate(d.below(bytes.len() as u64 + 1) as usize),
        1 => bytes.extend(record(1, d)),
        _ => {}
    }
    let places = match d.below(6) {
        0 => d.below(count as u64 + 1) as usize,
        _ => count + d.below(4) as usize,
    };
    Lent { bytes, places }
}
