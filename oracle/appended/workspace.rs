// The two fields of 001's workspace that its bin table needs, beside the table.
pub struct MaskWorkspace {
    bin_log2_hz: Vec<f32>,
    sample_rate: f32,
    fft_size: usize,
}
