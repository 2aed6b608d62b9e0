// The whole state by name. Every pattern names every field, so that none can be forgotten. Among them is
// what `active_count` answers: the port holds that number.
fn snapshot(engine: &Engine, see: crate::engine::See) {
    use crate::value::Value::{Double, Flag, Maybe, Number, Single};
    let Engine {
        particles,
        sources,
        prepared:
            Prepared {
                sample_rate,
                phase_alpha,
                partial_logs,
                default_partial_weights,
            },
        sample,
        phase,
        phase_offset,
        opportunity,
        immediate_index,
        streams,
        last_source,
        note_input_present,
        partial_weights,
        attempts,
        config:
            Config {
                enabled,
                shape,
                direction,
                rate_hz,
                size_octaves,
                phase: config_phase,
                scheduled,
                sync,
                hop_samples,
                partials,
                partial_rolloff_db,
                attack_ms,
                release_ms,
            },
        activity,
        births,
        dropped,
        decision_hash,
    } = engine;
    for (name, value) in [
        ("sample", Number(*sample)),
        ("phase", Double(*phase)),
        ("phase_offset", Double(*phase_offset)),
        ("opportunity", Number(*opportunity)),
        ("immediate_index", Number(*immediate_index)),
        ("last_source", Maybe(last_source.map(|s| s as u64))),
        ("note_input_present", Flag(*note_input_present)),
        ("attempts", Number(*attempts as u64)),
        ("activity", Single(*activity)),
        ("births", Number(*births)),
        ("dropped", Number(*dropped)),
        ("decision_hash", Number(*decision_hash)),
        ("active_count", Number(engine.active_count() as u64)),
        ("config.enabled", Flag(*enabled)),
        ("config.shape", Number(*shape as u64)),
        ("config.direction", Number(*direction as u64)),
        ("config.rate_hz", Single(*rate_hz)),
        ("config.size_octaves", Single(*size_octaves)),
        ("config.phase", Single(*config_phase)),
        ("config.scheduled", Flag(*scheduled)),
        ("config.sync", Flag(*sync)),
        ("config.hop_samples", Number(*hop_samples as u64)),
        ("config.partials", Number(*partials as u64)),
        ("config.partial_rolloff_db", Single(*partial_rolloff_db)),
        ("config.attack_ms", Single(*attack_ms)),
        ("config.release_ms", Single(*release_ms)),
        ("prepared.sample_rate", Double(*sample_rate)),
        ("prepared.phase_alpha", Double(*phase_alpha)),
    ] {
        see(name, None, "", value);
    }
    for i in 0..MAX_PARTIALS {
        see(
            "prepared.partial_logs",
            Some(i),
            "",
            Single(partial_logs[i]),
        );
        see(
            "prepared.default_partial_weights",
            Some(i),
            "",
            Single(default_partial_weights[i]),
        );
        see("partial_weights", Some(i), "", Single(partial_weights[i]));
    }
    for (i, SprinkleStream { index, next, emit }) in streams.iter().enumerate() {
        see("streams", Some(i), "index", Number(*index));
        see("streams", Some(i), "next", Double(*next));
        see("streams", Some(i), "emit", Flag(*emit));
    }
    for (i, source) in sources.iter().enumerate() {
        let Source {
            frequency_hz,
            strength,
            eligible,
        } = source;
        see("sources", Some(i), "frequency_hz", Single(*frequency_hz));
        see("sources", Some(i), "strength", Single(*strength));
        see("sources", Some(i), "eligible", Flag(*eligible));
    }
    for (i, particle) in particles.iter().enumerate() {
        let Particle {
            active,
            source,
            birth,
            lifetime,
            frequency_hz,
            octave,
            width,
            strength,
            attack,
            decay_power,
            partials: [first, second, third],
            retirement,
        } = particle;
        for (name, value) in [
            ("active", Flag(*active)),
            ("source", Maybe(source.map(|s| s as u64))),
            ("birth", Number(*birth)),
            ("lifetime", Double(*lifetime)),
            ("frequency_hz", Single(*frequency_hz)),
            ("octave", Single(*octave)),
            ("width", Single(*width)),
            ("strength", Single(*strength)),
            ("attack", Single(*attack)),
            ("decay_power", Number(*decay_power as u64)),
            ("partials.0", Number(u64::from(*first))),
            ("partials.1", Number(u64::from(*second))),
            ("partials.2", Number(u64::from(*third))),
            ("retirement", Maybe(*retirement)),
        ] {
            see("particles", Some(i), name, value);
        }
    }
}
