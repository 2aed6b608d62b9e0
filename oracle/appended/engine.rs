// What follows is the oracle's. First the engine behind its trait.
#[allow(unused_imports)]
use crate::ours::{Choose as _, Functions as _, Singles as _};

impl From<&crate::field::Settings> for Config {
    fn from(s: &crate::field::Settings) -> Self {
        Config {
            enabled: s.enabled,
            shape: if s.shape == 0 {
                Shape::Sprinkle
            } else {
                Shape::Cloud
            },
            direction: direction(s.direction),
            rate_hz: s.rate_hz,
            size_octaves: s.size_octaves,
            phase: s.phase,
            scheduled: s.scheduled,
            sync: s.sync,
            hop_samples: s.hop_samples as usize,
            partials: s.partials as usize,
            partial_rolloff_db: s.partial_rolloff_db,
            attack_ms: s.attack_ms,
            release_ms: s.release_ms,
        }
    }
}

fn direction(number: u8) -> Direction {
    match number {
        0 => Direction::Forward,
        1 => Direction::Reverse,
        _ => Direction::Alternate,
    }
}

impl From<&Frame> for crate::engine::Frame {
    fn from(f: &Frame) -> Self {
        crate::engine::Frame {
            windows: f
                .windows
                .map(|w| [w.center_log2_hz, w.radius_octaves, w.amplitude]),
            activity: f.activity,
        }
    }
}

impl From<&crate::engine::Frame> for Frame {
    fn from(f: &crate::engine::Frame) -> Self {
        Frame {
            windows: f.windows.map(open::window),
            activity: f.activity,
        }
    }
}

impl crate::engine::Particles for Engine {
    fn new(sample_rate: f32) -> Self {
        Engine::new(sample_rate)
    }
    fn configure(&mut self, settings: &crate::field::Settings) {
        self.configure(settings.into());
    }
    fn set_note_input_present(&mut self, present: bool) {
        self.set_note_input_present(present);
    }
    fn set_source(&mut self, slot: usize, frequency_hz: f32, strength: f32, eligible: bool) {
        self.set_source(
            slot,
            Source {
                frequency_hz,
                strength,
                eligible,
            },
        );
    }
    fn retire_source(&mut self, slot: usize) {
        self.retire_source(slot);
    }
    fn release_source(&mut self, slot: usize) {
        self.release_source(slot);
    }
    fn trigger(&mut self, slot: usize) {
        self.trigger(slot);
    }
    fn reserve_trigger(&mut self) -> u64 {
        self.reserve_trigger()
    }
    fn trigger_reserved(&mut self, slot: usize, index: u64) {
        self.trigger_reserved(slot, index);
    }
    fn seek(&mut self, cycles: f64) {
        self.seek(cycles);
    }
    fn advance(&mut self, samples: usize) {
        self.advance(samples);
    }
    fn frame(&mut self, bin_hz: f32, elapsed_seconds: f32) -> crate::engine::Frame {
        (&self.frame(bin_hz, elapsed_seconds)).into()
    }
    fn reset(&mut self) {
        self.reset();
    }
    fn elapsed_samples(&self) -> u64 {
        self.elapsed_samples()
    }
    fn skip(&mut self, samples: u64) {
        self.sample += samples;
    }
    fn active_count(&self) -> usize {
        self.active_count()
    }
    fn tally(&self) -> (u64, u64, u64) {
        (self.births, self.dropped, self.decision_hash)
    }

    fn visit(&self, see: crate::engine::See) {
        snapshot(self, see);
    }
}
