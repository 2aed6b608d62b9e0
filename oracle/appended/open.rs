/// The private functions, and the public ones on plain numbers.
pub mod open {
    use super::*;

    pub fn window([center_log2_hz, radius_octaves, amplitude]: [f32; 3]) -> Window {
        Window {
            center_log2_hz,
            radius_octaves,
            amplitude,
        }
    }
    pub fn openness(window: [f32; 3], log2_hz: f32) -> f32 {
        open::window(window).openness(log2_hz)
    }
    pub fn attenuation_db(frame: &crate::engine::Frame, frequency_hz: f32, depth_db: f32) -> f32 {
        Frame::from(frame).attenuation_db(frequency_hz, depth_db)
    }
    pub fn mix(x: u64) -> u64 {
        super::mix(x)
    }
    pub fn random(index: u64, stream: u64) -> f32 {
        super::random(index, stream)
    }
    /// A stream's number by its place in the heading: what stands behind `=` and `/`.
    pub fn stream(place: u64) -> u64 {
        let numbers = HEADING.split(['=', '/', ',', '.']);
        let mut numbers = numbers.filter_map(|part| part.trim().parse().ok());
        numbers.nth(place.min(10) as usize).unwrap()
    }
    pub fn sprinkle_key(lane: usize, index: u64) -> u64 {
        super::sprinkle_key(lane, index)
    }
    pub fn taper(x: f32) -> f32 {
        super::taper(x)
    }
    pub fn db_to_gain(db: f32) -> f32 {
        super::db_to_gain(db)
    }
    pub fn register_height(log_hz: f32) -> f32 {
        super::register_height(log_hz)
    }
    pub fn register_strength(log_hz: f32) -> f32 {
        super::register_strength(log_hz)
    }
    pub fn register_probability(log_hz: f32) -> f32 {
        super::register_probability(log_hz)
    }
    pub fn free_cloud_frequency(index: u64, max_hz: f32) -> f32 {
        super::free_cloud_frequency(index, max_hz)
    }
    pub fn sprinkle_register(index: u64, root_hz: f32, max_hz: f32, direction: u8) -> (f32, f32) {
        super::sprinkle_register(index, root_hz, max_hz, super::direction(direction))
    }
    pub fn select_partials(
        index: u64,
        weights: [f32; 24],
        limit: usize,
        max_ratio: f32,
    ) -> [u8; 3] {
        super::select_partials(index, weights, limit, max_ratio)
    }
    /// The next start and whether it emits, of a lane's stream set to `index` and prepared.
    pub fn prepared_stream(lane: usize, index: u64, sync: bool) -> (f64, bool) {
        let mut stream = SprinkleStream::new(lane, sync);
        stream.index = index;
        stream.prepare(lane, sync);
        (stream.next, stream.emit)
    }
    /// The envelope of settings as `configure` mends them.
    pub fn envelope(settings: &crate::field::Settings, index: u64, sample_rate: f32) -> (f32, f32) {
        let mut engine = Engine::new(sample_rate);
        engine.configure(settings.into());
        engine.config.envelope(index, sample_rate)
    }
    /// Settings as `configure` leaves them.
    pub fn mended(settings: &crate::field::Settings) -> crate::field::Settings {
        let mut engine = Engine::new(48_000.0);
        engine.configure(settings.into());
        let mended = engine.config;
        crate::field::Settings {
            rate_hz: mended.rate_hz,
            size_octaves: mended.size_octaves,
            phase: mended.phase,
            partials: mended.partials as u32,
            partial_rolloff_db: mended.partial_rolloff_db,
            attack_ms: mended.attack_ms,
            release_ms: mended.release_ms,
            ..*settings
        }
    }
    fn at_reference(reference: f64, sync: bool) -> Engine {
        let mut engine = Engine::new(48_000.0);
        engine.config.enabled = false;
        engine.config.sync = sync;
        engine.phase = reference;
        engine
    }
    /// The index of a lane's stream that is aligned to a reference.
    pub fn aligned_index(lane: usize, reference: f64, sync: bool) -> u64 {
        let mut engine = at_reference(reference, sync);
        engine.align_streams();
        engine.streams[lane].index
    }
    /// The index of a lane's stream that is due, after one sample.
    pub fn sampled_index(index: u64, lane: usize, reference: f64, sync: bool) -> u64 {
        let mut engine = at_reference(reference, sync);
        engine.streams[lane].index = index;
        engine.streams[lane].next = f64::NEG_INFINITY;
        engine.advance(1);
        engine.streams[lane].index
    }
    pub fn timing_reference(opportunity: u64) -> f64 {
        let mut engine = Engine::new(48_000.0);
        engine.opportunity = opportunity;
        engine.timing_reference()
    }
    pub fn bin_table(sample_rate: f32, fft_size: usize) -> Vec<f32> {
        let mut workspace = MaskWorkspace {
            bin_log2_hz: Vec::new(),
            sample_rate: 0.0,
            fft_size: 0,
        };
        workspace.prepare(sample_rate, fft_size);
        workspace.bin_log2_hz
    }
    pub fn gains(
        frame: &crate::engine::Frame,
        depth_db: f32,
        logs: &[f32],
        scratch: &mut [f32],
        output: &mut [f32],
    ) {
        masked(Mask::gains, frame, depth_db, logs, scratch, output);
    }
    /// What `gains` hands to `db_to_gain`, 0 where it fills with ones.
    pub fn decibels(
        frame: &crate::engine::Frame,
        depth_db: f32,
        logs: &[f32],
        scratch: &mut [f32],
        output: &mut [f32],
    ) {
        masked(Mask::decibels, frame, depth_db, logs, scratch, output);
    }
    fn masked(
        call: fn(&mut Mask, &Frame, f32, &MaskWorkspace, &mut [f32]),
        frame: &crate::engine::Frame,
        depth_db: f32,
        logs: &[f32],
        scratch: &mut [f32],
        output: &mut [f32],
    ) {
        let workspace = MaskWorkspace {
            bin_log2_hz: logs.to_vec(),
            sample_rate: 0.0,
            fft_size: 0,
        };
        let mut mask = Mask::new(logs.len());
        mask.openness.copy_from_slice(scratch);
        call(&mut mask, &frame.into(), depth_db, &workspace, output);
        scratch.copy_from_slice(&mask.openness);
    }
}
