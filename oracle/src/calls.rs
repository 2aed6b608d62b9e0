//! Single functions of the original on numbers by seed: `name arguments -> answer`, all by bits.
use crate::draws::Draws;
use crate::gen::script::Script;
use crate::gen::values::{hz, odd, odd_settings, rate, usual};
use crate::original::open;
use crate::register::ties;
use crate::value::{bits32, bits64};
use std::fmt::Write;

pub fn lines(seed: u64, rounds: usize) -> String {
    let mut d = Draws::new(seed, "calls");
    let mut text = String::new();
    for tie in ties(&mut d, rounds / 10) {
        register(tie.index, tie.root_hz, 20_000.0, 0, &mut text);
    }
    for _ in 0..rounds {
        draws(&mut d, &mut text);
        singles(&mut d, &mut text);
        pitches(&mut d, &mut text);
        partials(&mut d, &mut text);
        timing(&mut d, &mut text);
    }
    text
}

fn index(d: &mut Draws) -> u64 {
    match d.below(3) {
        0 => d.below(1_000),
        1 => open::sprinkle_key(d.below(3) as usize, d.below(1_000)),
        _ => d.word(),
    }
}

fn draws(d: &mut Draws, text: &mut String) {
    let (x, i, stream) = (d.word(), index(d), d.below(16));
    let (lane, group) = (d.below(3) as usize, d.below(1 << 40));
    writeln!(text, "mix {x} -> {}", open::mix(x)).unwrap();
    writeln!(
        text,
        "random {i} {stream} -> {:08x}",
        bits32(open::random(i, stream))
    )
    .unwrap();
    writeln!(
        text,
        "sprinkle_key {lane} {group} -> {}",
        open::sprinkle_key(lane, group)
    )
    .unwrap();
}

fn singles(d: &mut Draws, text: &mut String) {
    let x = match d.below(3) {
        0 => odd(d),
        1 => d.between(-0.5, 1.5),
        _ => d.between(-60.0, 20.0),
    };
    for (name, answer) in [
        ("taper", open::taper(x)),
        ("db_to_gain", open::db_to_gain(x)),
        ("register_height", open::register_height(x)),
        ("register_strength", open::register_strength(x)),
        ("register_probability", open::register_probability(x)),
    ] {
        writeln!(text, "{name} {:08x} -> {:08x}", bits32(x), bits32(answer)).unwrap();
    }
    let window = [
        d.between(4.0, 14.0),
        d.between(-0.5, 3.0),
        d.between(0.0, 1.0),
    ];
    let window = window.map(|y| if d.once_in(5) { odd(d) } else { y });
    let log = if d.flag() {
        window[0] + d.between(-3.0, 3.0)
    } else {
        x
    };
    let shown = window.map(bits32);
    let open = bits32(open::openness(window, log));
    writeln!(
        text,
        "openness {shown:08x?} {:08x} -> {open:08x}",
        bits32(log)
    )
    .unwrap();
}

fn pitches(d: &mut Draws, text: &mut String) {
    let i = index(d);
    let max_hz = (rate(d) * 0.5).min(20_000.0);
    let root = if d.once_in(6) { odd(d).abs() } else { hz(d) };
    let direction = d.below(3) as u8;
    let free = open::free_cloud_frequency(i, max_hz);
    writeln!(
        text,
        "free_cloud_frequency {i} {:08x} -> {:08x}",
        bits32(max_hz),
        bits32(free)
    )
    .unwrap();
    if root.is_finite() && root > 0.0 {
        register(i, root, max_hz, direction, text);
    }
}

fn register(i: u64, root: f32, max_hz: f32, direction: u8, text: &mut String) {
    let (octave, strength) = open::sprinkle_register(i, root, max_hz, direction);
    writeln!(
        text,
        "sprinkle_register {i} {:08x} {:08x} {direction} -> {:08x} {:08x}",
        bits32(root),
        bits32(max_hz),
        bits32(octave),
        bits32(strength)
    )
    .unwrap();
}

fn partials(d: &mut Draws, text: &mut String) {
    let i = index(d);
    let rolloff = d.pick(&[0.0, 1.0, 6.0, 12.0, 24.0]);
    let odd_ones = d.once_in(4);
    let mut weights = [0.0; 24];
    for (k, weight) in weights.iter_mut().enumerate() {
        *weight = 1.0 / (1.0 + rolloff * k as f32);
        if odd_ones && d.once_in(5) {
            *weight = odd(d);
        }
    }
    let limit = d.below(26) as usize;
    let ratio = match d.below(3) {
        0 => odd(d),
        1 => d.below(26) as f32,
        _ => d.between(0.0, 30.0),
    };
    let [a, b, c] = open::select_partials(i, weights, limit, ratio);
    let shown = weights.map(bits32);
    writeln!(
        text,
        "select_partials {i} {shown:08x?} {limit} {:08x} -> {a} {b} {c}",
        bits32(ratio)
    )
    .unwrap();
}

fn timing(d: &mut Draws, text: &mut String) {
    let (lane, at, sync) = (d.below(3) as usize, d.below(700_000_000), d.flag());
    let (next, emit) = open::prepared_stream(lane, at, sync);
    writeln!(
        text,
        "prepare {lane} {at} {sync} -> {:016x} {emit}",
        bits64(next)
    )
    .unwrap();
    let opportunity = d.below(1_000_000_001);
    let reference = bits64(open::timing_reference(opportunity));
    writeln!(text, "timing_reference {opportunity} -> {reference:016x}").unwrap();
    let settings = if d.flag() { odd_settings(d) } else { usual(d) };
    let (i, rate) = (index(d), rate(d));
    let (lifetime, attack) = open::envelope(&settings, i, rate);
    let mut field = Script::default();
    field.configure(&settings);
    let shown: String = field.0[3..].iter().map(|b| format!("{b:02x}")).collect();
    writeln!(
        text,
        "envelope {shown} {i} {:08x} -> {:08x} {:08x}",
        bits32(rate),
        bits32(lifetime),
        bits32(attack)
    )
    .unwrap();
}
