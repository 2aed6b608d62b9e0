//! The time of a mask call against the original's, on the same frames in one run: the least of many
//! passes. The port's time has its answer's checks and the frame's copy in it.
#[cfg(original)]
mod measured {
    use raknaduv_bench::frames::{flat, frame, least, logs};
    use raknaduv_bench::gains as ours;
    use raknaduv_bench::particles::Mask;
    use raknaduv_bench::MaskWorkspace;
    use std::hint::black_box;

    /// One call at 48 kHz, with so many bins and windows.
    fn row(bins: usize, windows: usize) {
        let logs = logs(bins);
        let workspace = MaskWorkspace {
            bin_log2_hz: logs.clone(),
        };
        let frame = frame(windows);
        let flat = flat(&frame);
        let (mut mask, mut theirs) = (Mask::new(bins), vec![0.0; bins]);
        let (mut scratch, mut output) = (vec![0.0; bins], vec![0.0; bins]);
        let a = least(|| {
            let answer = ours(
                black_box(&flat),
                frame.activity,
                36.0,
                &logs,
                &mut scratch,
                &mut output,
            );
            assert_eq!(answer, 0);
            black_box(&output);
        });
        let b = least(|| {
            mask.gains(black_box(&frame), 36.0, &workspace, &mut theirs);
            black_box(&theirs);
        });
        let apart = output
            .iter()
            .zip(&theirs)
            .map(|(x, y)| (x - y).abs())
            .fold(0.0, f32::max);
        assert!(apart < 1e-6, "gains {apart} apart");
        println!(
            "gains, {bins} bins, {windows:3} windows   {a:7.2} us, Rust {b:7.2} us, ratio {:5.2}",
            a / b
        );
    }

    pub fn run() {
        for bins in [4_097, 8_193] {
            for windows in [0, 16, 64, 192] {
                row(bins, windows);
            }
        }
    }
}

fn main() {
    #[cfg(original)]
    measured::run();
    #[cfg(not(original))]
    println!("no originals in $RAKNADUV_RUST: the mask was NOT measured");
}
