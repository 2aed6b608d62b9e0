//! Writes scripts: a field's tag, length and value.
use crate::field::Settings;

#[derive(Default)]
pub struct Script(pub Vec<u8>);

impl Script {
    pub fn at(rate: f32) -> Self {
        let mut script = Script::default();
        script.field(1, &rate.to_be_bytes());
        script
    }
    pub fn field(&mut self, tag: u8, value: &[u8]) -> &mut Self {
        self.0.push(tag);
        self.0.extend((value.len() as u16).to_be_bytes());
        self.0.extend(value);
        self
    }
    pub fn configure(&mut self, s: &Settings) -> &mut Self {
        let mut value = vec![u8::from(s.enabled), s.shape, s.direction];
        for x in [s.rate_hz, s.size_octaves, s.phase] {
            value.extend(x.to_be_bytes());
        }
        value.extend([u8::from(s.scheduled), u8::from(s.sync)]);
        value.extend(s.hop_samples.to_be_bytes());
        value.extend(s.partials.to_be_bytes());
        for x in [s.partial_rolloff_db, s.attack_ms, s.release_ms] {
            value.extend(x.to_be_bytes());
        }
        self.field(2, &value)
    }
    pub fn source(&mut self, slot: u16, hz: f32, strength: f32, eligible: bool) -> &mut Self {
        let mut value = slot.to_be_bytes().to_vec();
        value.extend(hz.to_be_bytes());
        value.extend(strength.to_be_bytes());
        value.push(u8::from(eligible));
        self.field(3, &value)
    }
    pub fn retire(&mut self, slot: u16) -> &mut Self {
        self.field(4, &slot.to_be_bytes())
    }
    pub fn release(&mut self, slot: u16) -> &mut Self {
        self.field(5, &slot.to_be_bytes())
    }
    pub fn trigger(&mut self, slot: u16) -> &mut Self {
        self.field(6, &slot.to_be_bytes())
    }
    pub fn seek(&mut self, cycles: f64) -> &mut Self {
        self.field(7, &cycles.to_be_bytes())
    }
    pub fn advance(&mut self, samples: u32) -> &mut Self {
        self.field(8, &samples.to_be_bytes())
    }
    pub fn frame(&mut self, bin_hz: f32, elapsed: f32) -> &mut Self {
        let mut value = bin_hz.to_be_bytes().to_vec();
        value.extend(elapsed.to_be_bytes());
        self.field(9, &value)
    }
    pub fn note_input(&mut self, present: bool) -> &mut Self {
        self.field(10, &[u8::from(present)])
    }
    pub fn reset(&mut self) -> &mut Self {
        self.field(11, &[])
    }
    pub fn reserve(&mut self) -> &mut Self {
        self.field(12, &[])
    }
    pub fn reserved(&mut self, slot: u16, index: u64) -> &mut Self {
        let mut value = slot.to_be_bytes().to_vec();
        value.extend(index.to_be_bytes());
        self.field(13, &value)
    }
}
