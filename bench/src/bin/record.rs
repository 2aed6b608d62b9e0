//! The time of a record of a mask file, written and read, against the original's mask call alone on the
//! same frame in one run: the least of many passes. The port's time has the frame's copy in it.
#[cfg(original)]
mod measured {
    use raknaduv_bench::frames::{flat, frame, least, logs};
    use raknaduv_bench::particles::Mask;
    use raknaduv_bench::{read_record, write_record, MaskWorkspace};
    use std::hint::black_box;

    const BINS: usize = 8_193;
    const DEPTH_DB: f32 = 36.0;
    const SAMPLE: u64 = 123_456_789;

    /// What both sides do for a frame with so many windows.
    fn row(windows: usize) {
        let logs = logs(BINS);
        let workspace = MaskWorkspace {
            bin_log2_hz: logs.clone(),
        };
        let frame = frame(windows);
        let flat = flat(&frame);
        let (mut mask, mut gains) = (Mask::new(BINS), vec![0.0; BINS]);
        let (mut scratch, mut out) = (vec![0.0; BINS], vec![0; 16 + 2 * BINS]);
        let size = out.len() as u64;
        let written = least(|| {
            let at = write_record(
                SAMPLE,
                black_box(&flat),
                frame.activity,
                DEPTH_DB,
                &logs,
                &mut scratch,
                &mut out,
            );
            assert_eq!(at, Ok(size));
            black_box(&out);
        });
        let mut entries = vec![0; BINS];
        let read = least(|| {
            let found = read_record(black_box(&out), &mut entries);
            assert_eq!(found, Ok((SAMPLE, BINS as u64, size)));
            black_box(&entries);
        });
        let rust = least(|| {
            mask.gains(black_box(&frame), DEPTH_DB, &workspace, &mut gains);
            black_box(&gains);
        });
        // A tenth is at most 0.05 decibels away, and an entry half a step.
        let apart = entries
            .iter()
            .zip(&gains)
            .map(|(e, gain)| (f32::from(*e) / 32_768.0 - gain).abs())
            .fold(0.0, f32::max);
        assert!(apart < 0.006, "entries {apart} from the gains");
        let of = format!("{BINS} bins, {windows:3} windows");
        println!(
            "a record written, {of}   {written:7.2} us, Rust's gains {rust:7.2} us, ratio {:5.2}",
            written / rust
        );
        println!(
            "a record read,    {of}   {read:7.2} us, {:5.0} MB/s",
            size as f64 / read
        );
    }

    pub fn run() {
        for windows in [0, 16, 64, 192] {
            row(windows);
        }
    }
}

fn main() {
    #[cfg(original)]
    measured::run();
    #[cfg(not(original))]
    println!("no originals in $RAKNADUV_RUST: records were NOT measured");
}
