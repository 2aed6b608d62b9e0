//! The list of probes: a single function of the port, `rk_probe_NAME` in the archive `liboracle_probe.a`,
//! and the Rust that it must equal bit for bit. A layer has its rows here.
use crate::bits::Bits;
use crate::exact;
use crate::field::Settings;
use crate::gen::values::settings as plain;
use crate::original::open;
use crate::ours::Choose;

/// The same arguments, as words, for the Rust and for the port. The Rust answers nothing where it
/// would panic, or where the port promises nothing: nothing is compared there.
pub struct Probe {
    pub name: &'static str,
    pub edges: fn() -> Vec<Vec<u64>>,
    /// Whole lists of arguments that come before all others, by the base of the seeds.
    pub exact: fn(u64) -> Vec<Vec<u64>>,
    pub rust: fn(&[u64]) -> Option<u64>,
    pub port: fn(&[u64]) -> u64,
}

fn settings(
    kind: u32,
    way: u32,
    rate: f32,
    size: f32,
    hop: u32,
    attack: f32,
    release: f32,
) -> Settings {
    Settings {
        shape: kind.min(1) as u8,
        direction: way.min(2) as u8,
        rate_hz: rate,
        size_octaves: size,
        hop_samples: hop,
        attack_ms: attack,
        release_ms: release,
        ..plain()
    }
}

/// Weights of every kind of float, by a seed.
fn weights(seed: u64) -> [f32; 24] {
    std::array::from_fn(|i| f32::from_bits(open::mix(seed.wrapping_add(i as u64)) as u32))
}

fn packed([first, second, third]: [u8; 3]) -> u32 {
    u32::from_le_bytes([first, second, third, 0])
}

/// Whether the archive of the probes is here.
pub const PROBED: bool = cfg!(probed);

macro_rules! probes {
    ($($name:ident $foreign:ident ($($x:ident: $t:ty),*) -> $r:ty $(, at $exact:expr)? $(, if $guard:expr)? => $rust:expr;)*) => {
        #[cfg(probed)]
        extern "C" {
            $(fn $foreign($($x: $t),*) -> $r;)*
        }

        #[cfg(not(probed))]
        #[allow(clippy::too_many_arguments)]
        mod absent {
            $(pub unsafe fn $foreign($(_: $t),*) -> $r {
                unreachable!("no probe is called where the archive is absent")
            })*
        }
        #[cfg(not(probed))]
        use absent::*;

        pub const PROBES: &[Probe] = &[$(Probe {
            name: stringify!($name),
            edges: || vec![$(<$t as Bits>::edges()),*],
            exact: |base| {
                let lists: &[fn(u64) -> Vec<Vec<u64>>] = &[$($exact)?];
                lists.iter().flat_map(|list| list(base)).collect()
            },
            rust: |words| {
                let mut words = words.iter();
                $(let $x = <$t as Bits>::of(*words.next()?);)*
                $({
                    let passes: bool = $guard;
                    passes.then_some(())?;
                })?
                let answer: $r = $rust;
                Some(answer.word())
            },
            port: |words| {
                let mut words = words.iter();
                $(let $x = <$t as Bits>::of(*words.next().unwrap());)*
                unsafe { $foreign($($x),*) }.word()
            },
        }),*];
    };
}

probes! {
    floor32 rk_probe_floor32(x: f32) -> f32 => x.floor();
    ceil32 rk_probe_ceil32(x: f32) -> f32 => x.ceil();
    floor64 rk_probe_floor64(x: f64) -> f64 => x.floor();
    ceil64 rk_probe_ceil64(x: f64) -> f64 => x.ceil();
    max32 rk_probe_max32(x: f32, y: f32) -> f32 => x.our_max(y);
    min32 rk_probe_min32(x: f32, y: f32) -> f32 => x.our_min(y);
    max64 rk_probe_max64(x: f64, y: f64) -> f64 => x.our_max(y);
    clamp32 rk_probe_clamp32(x: f32, a: f32, b: f32) -> f32, if a <= b => x.clamp(a, b);
    abs32 rk_probe_abs32(x: f32) -> f32 => x.abs();
    is_finite32 rk_probe_is_finite32(x: f32) -> bool => x.is_finite();
    is_finite64 rk_probe_is_finite64(x: f64) -> bool => x.is_finite();
    f64_to_u64 rk_probe_f64_to_u64(x: f64) -> u64 => x as u64;
    f64_to_u32 rk_probe_f64_to_u32(x: f64) -> u32 => x as u32;
    f32_to_u64 rk_probe_f32_to_u64(x: f32) -> u64 => x as u64;
    f32_to_u32 rk_probe_f32_to_u32(x: f32) -> u32 => x as u32;
    f32_to_f64 rk_probe_f32_to_f64(x: f32) -> f64 => f64::from(x);
    f64_to_f32 rk_probe_f64_to_f32(x: f64) -> f32 => x as f32;
    u64_to_f32 rk_probe_u64_to_f32(n: u64) -> f32 => n as f32;
    bits32 rk_probe_bits32(x: f32) -> u32 => crate::value::bits32(x);
    bits64 rk_probe_bits64(x: f64) -> u64 => crate::value::bits64(x);
    of_bits32 rk_probe_of_bits32(b: u32) -> f32 => f32::from_bits(b);
    of_bits64 rk_probe_of_bits64(b: u64) -> f64 => f64::from_bits(b);
    rem32 rk_probe_rem32(x: f32, m: f32) -> f32 => x % m;
    rem64 rk_probe_rem64(x: f64, m: f64) -> f64 => x % m;
    rem_euclid32 rk_probe_rem_euclid32(x: f32, m: f32) -> f32 => x.rem_euclid(m);
    rem_euclid64 rk_probe_rem_euclid64(x: f64, m: f64) -> f64 => x.rem_euclid(m);
    wrapping_mul rk_probe_wrapping_mul(a: u64, b: u64) -> u64 => a.wrapping_mul(b);
    rotate_left rk_probe_rotate_left(x: u64, n: u32) -> u64 => x.rotate_left(n);
    mix rk_probe_mix(x: u64) -> u64 => open::mix(x);
    random rk_probe_random(index: u64, stream: u64) -> f32 => open::random(index, stream);
    stream rk_probe_stream(place: u64) -> u64 => open::stream(place);
    sprinkle_key rk_probe_sprinkle_key(lane: u64, index: u64) -> u64 => open::sprinkle_key(lane as usize, index);
    mended_rate rk_probe_mended_rate(x: f32) -> f32 => open::mended(&Settings { rate_hz: x, ..plain() }).rate_hz;
    mended_size rk_probe_mended_size(x: f32) -> f32 => open::mended(&Settings { size_octaves: x, ..plain() }).size_octaves;
    mended_phase rk_probe_mended_phase(x: f32) -> f32 => open::mended(&Settings { phase: x, ..plain() }).phase;
    mended_rolloff rk_probe_mended_rolloff(x: f32) -> f32 => open::mended(&Settings { partial_rolloff_db: x, ..plain() }).partial_rolloff_db;
    mended_attack rk_probe_mended_attack(x: f32) -> f32 => open::mended(&Settings { attack_ms: x, ..plain() }).attack_ms;
    mended_release rk_probe_mended_release(x: f32) -> f32 => open::mended(&Settings { release_ms: x, ..plain() }).release_ms;
    mended_partials rk_probe_mended_partials(n: u32) -> u64 => open::mended(&Settings { partials: n, ..plain() }).partials.into();
    lifetime rk_probe_lifetime(kind: u32, way: u32, rate: f32, size: f32, hop: u32, attack: f32, release: f32, index: u64, sample_rate: f32) -> f32,
        if sample_rate.is_finite() && sample_rate > 0.0
        => open::envelope(&settings(kind, way, rate, size, hop, attack, release), index, sample_rate).0;
    attack rk_probe_attack(kind: u32, way: u32, rate: f32, size: f32, hop: u32, attack: f32, release: f32, index: u64, sample_rate: f32) -> f32,
        if sample_rate.is_finite() && sample_rate > 0.0
        => open::envelope(&settings(kind, way, rate, size, hop, attack, release), index, sample_rate).1;
    prepared_next rk_probe_prepared_next(index: u64, lane: u32, sync: bool) -> f64 => open::prepared_stream(lane as usize, index, sync).0;
    prepared_emit rk_probe_prepared_emit(index: u64, lane: u32, sync: bool) -> bool => open::prepared_stream(lane as usize, index, sync).1;
    sampled_index rk_probe_sampled_index(index: u64, lane: u32, reference: f64, sync: bool) -> u64, if lane < 3
        => open::sampled_index(index, lane as usize, reference, sync);
    aligned_first rk_probe_aligned_first(reference: f64, sync: bool) -> u64 => open::aligned_index(0, reference, sync);
    aligned_third rk_probe_aligned_third(reference: f64, sync: bool) -> u64 => open::aligned_index(2, reference, sync);
    timing_reference rk_probe_timing_reference(opportunity: u64) -> f64 => open::timing_reference(opportunity);
    register_height rk_probe_register_height(log_hz: f32) -> f32 => open::register_height(log_hz);
    register_strength rk_probe_register_strength(log_hz: f32) -> f32 => open::register_strength(log_hz);
    register_probability rk_probe_register_probability(log_hz: f32) -> f32 => open::register_probability(log_hz);
    free_cloud_frequency rk_probe_free_cloud_frequency(index: u64, max_hz: f32) -> f32, at exact::tops, if max_hz >= 4_000.0
        => open::free_cloud_frequency(index, max_hz);
    octave rk_probe_octave(index: u64, root_hz: f32, max_hz: f32, way: u32) -> f32, at exact::registers, if max_hz >= 4_000.0
        => open::sprinkle_register(index, root_hz, max_hz, way.min(2) as u8).0;
    strength rk_probe_strength(index: u64, root_hz: f32, max_hz: f32, way: u32) -> f32, at exact::registers, if max_hz >= 4_000.0
        => open::sprinkle_register(index, root_hz, max_hz, way.min(2) as u8).1;
    select_partials rk_probe_select_partials(index: u64, seed: u64, limit: u64, max_ratio: f32) -> u32, at exact::partials
        => packed(open::select_partials(index, weights(seed), limit as usize, max_ratio));
    taper rk_probe_taper(x: f32) -> f32 => open::taper(x);
    openness rk_probe_openness(center: f32, radius: f32, amplitude: f32, log2_hz: f32) -> f32, at exact::windows
        => open::openness([center, radius, amplitude], log2_hz);
}
