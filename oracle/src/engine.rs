//! The original engine as the rest of the oracle sees it, whichever module it comes from.
use crate::field::Settings;
use crate::value::Value;

/// A frame's windows (centre, radius, amplitude) and its activity.
#[derive(Clone)]
pub struct Frame {
    pub windows: [[f32; 3]; 192],
    pub activity: f32,
}

impl Frame {
    pub fn empty() -> Self {
        Frame {
            windows: [[0.0; 3]; 192],
            activity: 0.0,
        }
    }
}

/// What sees one value of the state: group, place in it, field, value.
pub type See<'a> = &'a mut dyn FnMut(&'static str, Option<usize>, &'static str, Value);

pub trait Particles: Sized {
    fn new(sample_rate: f32) -> Self;
    fn configure(&mut self, settings: &Settings);
    fn set_note_input_present(&mut self, present: bool);
    fn set_source(&mut self, slot: usize, frequency_hz: f32, strength: f32, eligible: bool);
    fn retire_source(&mut self, slot: usize);
    fn release_source(&mut self, slot: usize);
    fn trigger(&mut self, slot: usize);
    fn reserve_trigger(&mut self) -> u64;
    fn trigger_reserved(&mut self, slot: usize, index: u64);
    fn seek(&mut self, cycles: f64);
    fn advance(&mut self, samples: usize);
    fn frame(&mut self, bin_hz: f32, elapsed_seconds: f32) -> Frame;
    fn reset(&mut self);
    fn elapsed_samples(&self) -> u64;
    /// Counts samples and does nothing else of what they do.
    fn skip(&mut self, samples: u64);
    fn active_count(&self) -> usize;
    /// Births, dropped, decision hash.
    fn tally(&self) -> (u64, u64, u64);
    fn visit(&self, see: See);
}
