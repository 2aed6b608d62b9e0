//! The time of the engine's calls against the original's, on the same calls in one run: the least of
//! many passes, less that of the same script without them. `job` besides: one of the 26 scripts of an
//! hour.
#[cfg(original)]
mod measured {
    use raknaduv_bench::calls::{active_counts, original, script, Call};
    use raknaduv_bench::particles::{Config, Shape};
    use std::hint::black_box;
    use std::time::Instant;

    const HOP: u32 = 2_048;

    fn least(passes: usize, mut pass: impl FnMut()) -> f64 {
        (0..passes).fold(f64::MAX, |best, _| {
            let start = Instant::now();
            pass();
            best.min(start.elapsed().as_nanos() as f64)
        })
    }

    /// Nanoseconds of the port and of the original.
    fn times(passes: usize, calls: &[Call]) -> (f64, f64) {
        let bytes = script(calls);
        let mut out = [0u8; 2_308];
        let ours = least(passes, || {
            assert_eq!(raknaduv_bench::script(black_box(&bytes), &mut out), 0);
            black_box(&out);
        });
        let theirs = least(passes, || {
            black_box(original(black_box(calls)));
        });
        (ours, theirs)
    }

    /// One of the `count` alike that `whole` has and `less` has not.
    fn difference(passes: usize, name: &str, less: &[Call], whole: &[Call], count: f64) {
        let (less, whole) = (times(passes, less), times(passes, whole));
        let (ours, theirs) = ((whole.0 - less.0) / count, (whole.1 - less.1) / count);
        println!(
            "{name:34} {ours:10.1} ns, Rust {theirs:8.1} ns, ratio {:7.2}",
            ours / theirs
        );
    }

    /// One of `count` alike that follow `before`.
    fn row(name: &str, before: &[Call], after: &[Call], count: f64) {
        difference(60, name, before, &[before, after].concat(), count);
    }

    /// Settings and 16 sources.
    fn set(config: Config) -> Vec<Call> {
        let mut calls = vec![Call::Configure(config)];
        calls.extend((0..16).map(|slot| Call::Source(slot, 110.0 * 1.06f32.powi(slot.into()))));
        calls
    }

    fn settings(enabled: bool, shape: Shape, rate_hz: f32) -> Config {
        Config {
            enabled,
            shape,
            rate_hz,
            partials: 8,
            ..Config::default()
        }
    }

    /// So many times 2,048 samples and a frame.
    fn hops(count: usize) -> Vec<Call> {
        [
            Call::Advance(HOP),
            Call::Frame(HOP as f32 / raknaduv_bench::calls::RATE),
        ]
        .repeat(count)
    }

    /// With hardly a start: the offset has glided to the setting, and stays.
    fn at_rest(shape: Shape, name: &str) {
        let slow = settings(false, shape, 0.01);
        let mut before = set(slow);
        before.push(Call::Advance(1));
        before.push(Call::Configure(Config {
            phase: 0.25,
            ..slow
        }));
        before.push(Call::Advance(200_000));
        row(
            &format!("a sample at rest, {name}"),
            &before,
            &[Call::Advance(100_000)],
            100_000.0,
        );
    }

    /// With hardly a start: before each `advance` of 10,000 samples the setting moves by nearly half a
    /// cycle, from one of these phases to the other, and the offset glides for longer than that.
    fn gliding(how: &str, shape: Shape, name: &str, phases: [f32; 2]) {
        const SAMPLES: u32 = 10_000;
        let slow = settings(false, shape, 0.01);
        let (mut less, mut whole) = (set(slow), set(slow));
        less.push(Call::Advance(1));
        whole.push(Call::Advance(1));
        for phase in phases.repeat(10) {
            let moved = Call::Configure(Config { phase, ..slow });
            less.push(moved);
            whole.extend([moved, Call::Advance(SAMPLES)]);
        }
        let count = f64::from(SAMPLES) * 20.0;
        difference(60, &format!("a sample {how}, {name}"), &less, &whole, count);
    }

    /// `active_count` after a trigger: what it adds to the time of the triggers, nearly all of which
    /// find the attempts used up.
    fn asked() {
        const EVENTS: u64 = 10_000;
        let ours = raknaduv_bench::active_counts;
        assert_eq!(ours(EVENTS, true), active_counts(EVENTS, true));
        let added = |counts: fn(u64, bool) -> u64| {
            let [with, without] = [true, false].map(|asked| {
                least(200, || {
                    black_box(counts(black_box(EVENTS), black_box(asked)));
                })
            });
            (with - without) / EVENTS as f64
        };
        let (ours, theirs) = (added(ours), added(active_counts));
        println!(
            "{:34} {ours:10.1} ns, Rust {theirs:8.1} ns, ratio {:7.2}",
            "active_count",
            ours / theirs
        );
    }

    pub fn run(job: bool) {
        if job {
            let calls = [set(settings(true, Shape::Sprinkle, 32.0)), hops(3_300)].concat();
            let (ours, theirs) = times(3, &calls);
            println!(
                "a job: 3,300 hops of {HOP} samples    {:.3} s, Rust {:.3} s, ratio {:.2}",
                ours / 1e9,
                theirs / 1e9,
                ours / theirs
            );
            return;
        }
        for (shape, name) in [(Shape::Sprinkle, "Sprinkle"), (Shape::Cloud, "Cloud")] {
            for samples in [1_000, 10_000] {
                let after = [Call::Advance(samples)];
                row(
                    &format!("a sample, {name} off, of {samples}"),
                    &set(settings(false, shape, 32.0)),
                    &after,
                    samples.into(),
                );
            }
            row(
                &format!("a sample, {name} at 32 Hz, frames"),
                &set(settings(true, shape, 32.0)),
                &hops(8),
                f64::from(8 * HOP),
            );
            at_rest(shape, name);
            gliding("gliding", shape, name, [0.55, 0.1]);
            gliding("gliding past 1", shape, name, [0.8, 0.25]);
        }
        let sprinkle = set(settings(true, Shape::Sprinkle, 1.0));
        let births: Vec<Call> = (0..64).map(|i| Call::Trigger(i % 16)).collect();
        row("a birth by a trigger", &sprinkle, &births, 64.0);
        let full = [sprinkle.clone(), births].concat();
        row(
            "a frame with 64 particles",
            &full,
            &[Call::Frame(0.0)].repeat(200),
            200.0,
        );
        asked();
        // As a dashboard sees a script: a frame after every field, and the count at each.
        let seen = [Call::NoteInput(false), Call::Frame(0.0), Call::ActiveCount];
        for (held, before) in [(0, &sprinkle), (64, &full)] {
            row(
                &format!("a field and a frame, {held} held"),
                before,
                &seen.repeat(1_000),
                1_000.0,
            );
        }
        row(
            "a field that does nothing",
            &sprinkle,
            &[Call::NoteInput(false)].repeat(10_000),
            10_000.0,
        );
        // How the time grows: the whole of one `advance`, by its samples.
        for power in 3..=7 {
            let samples = 10u32.pow(power);
            let before = set(settings(false, Shape::Sprinkle, 32.0));
            difference(
                if power < 6 { 60 } else { 5 },
                &format!("a sample of 10^{power}"),
                &before,
                &[&before[..], &[Call::Advance(samples)]].concat(),
                samples.into(),
            );
        }
    }
}

fn main() {
    #[cfg(original)]
    measured::run(std::env::args().nth(1).as_deref() == Some("job"));
    #[cfg(not(original))]
    println!("no originals in $RAKNADUV_RUST: the engine was NOT measured");
}
