//! The time of writing an event by the port's calls against a plain writer's, on the same events in one
//! run: the least of many passes over a script, the two by turns; and how many bytes the port writes in
//! a second. Nothing is timed unless both write the same bytes.
use raknaduv_bench::events::{ours, plain, Event, Settings};
use std::hint::black_box;
use std::time::Instant;

const PASSES: usize = 2_000;
const ROOM: usize = 60_000;

type Writer = fn(&Event, &mut [u8], &mut u64) -> u32;

/// Writes the events, and answers how many bytes they take.
fn written(writer: Writer, events: &[Event], bytes: &mut [u8]) -> u64 {
    let mut at = 0;
    for event in events {
        assert_eq!(writer(event, bytes, &mut at), 0);
    }
    at
}

/// The bytes of the events. One more is refused where no byte is free, and leaves all as it was.
fn script(writer: Writer, events: &[Event]) -> Vec<u8> {
    let mut bytes = vec![0; ROOM];
    let mut at = written(writer, events, &mut bytes);
    bytes.truncate(at as usize);
    let before = (bytes.clone(), at);
    assert_eq!(writer(&events[0], &mut bytes, &mut at), 13);
    assert!(before == (bytes, at));
    before.0
}

fn row(name: &str, events: &[Event]) {
    let bytes = script(ours, events);
    assert!(
        bytes == script(plain, events),
        "{name}: other bytes than the plain writer's"
    );
    let mut out = vec![0; ROOM];
    let mut least = [f64::MAX; 2];
    for _ in 0..PASSES {
        for (writer, best) in [ours as Writer, plain].into_iter().zip(&mut least) {
            let start = Instant::now();
            black_box(written(black_box(writer), black_box(events), &mut out));
            black_box(&out);
            *best = best.min(start.elapsed().as_nanos() as f64);
        }
    }
    let [a, b] = least.map(|time| time / events.len() as f64);
    println!(
        "{name:34} {a:6.2} ns, Rust {b:6.2} ns, ratio {:5.2}, {:5.0} MB/s",
        a / b,
        bytes.len() as f64 / least[0] * 1000.0
    );
}

/// Numbers of every size: NaNs are among them, and hops that the form can't hold.
struct Draws(u64);

impl Draws {
    fn next(&mut self) -> u64 {
        self.0 = self
            .0
            .wrapping_mul(6364136223846793005)
            .wrapping_add(1442695040888963407);
        self.0.rotate_left(33)
    }
    fn float(&mut self) -> f32 {
        f32::from_bits(self.next() as u32)
    }
    fn flag(&mut self) -> bool {
        self.next() % 2 == 1
    }
    fn settings(&mut self) -> Event {
        Event::Configure(Settings {
            enabled: self.flag(),
            shape: self.next() as u8,
            direction: self.next() as u8 % 4,
            rate_hz: self.float(),
            size_octaves: self.float(),
            phase: self.float(),
            scheduled: self.flag(),
            sync: self.flag(),
            hop_samples: self.next() as usize >> 31,
            partials: self.next() as usize >> 31,
            partial_rolloff_db: self.float(),
            attack_ms: self.float(),
            release_ms: self.float(),
        })
    }
    fn event(&mut self) -> Event {
        let slot = self.next() as u16;
        match self.next() % 13 {
            0 => Event::Rate(self.float()),
            1 => self.settings(),
            2 => Event::Source(slot, self.float(), self.float(), self.flag()),
            3 => Event::Retire(slot),
            4 => Event::Release(slot),
            5 => Event::Trigger(slot),
            6 => Event::Seek(f64::from_bits(self.next())),
            7 => Event::Advance(self.next() as u32),
            8 => Event::Frame(self.float(), self.float()),
            9 => Event::NoteInput(self.flag()),
            10 => Event::Reset,
            11 => Event::Reserve,
            _ => Event::ReservedTrigger(slot, self.next()),
        }
    }
}

/// What a planner's tool writes: settings, 16 sources, then a frame every 2,048 samples, a trigger at
/// every eighth and another pitch for a source at every 32nd.
fn planned() -> Vec<Event> {
    let pitch = |i: u16| Event::Source(i % 16, 110.0 * 1.06f32.powi((i % 61).into()), 1.0, true);
    let mut events = vec![
        Event::Rate(48_000.0),
        Event::Configure(Settings {
            enabled: true,
            shape: 0,
            direction: 0,
            rate_hz: 4.0,
            size_octaves: 1.0,
            phase: 0.25,
            scheduled: true,
            sync: false,
            hop_samples: 2_048,
            partials: 8,
            partial_rolloff_db: 6.0,
            attack_ms: 5.0,
            release_ms: 70.0,
        }),
    ];
    events.extend((0..16).map(pitch));
    for hop in 0..3_000 {
        if hop % 8 == 0 {
            events.push(Event::Trigger(hop / 8 % 16));
        }
        if hop % 32 == 0 {
            events.push(pitch(hop / 32));
        }
        events.push(Event::Advance(2_048));
        events.push(Event::Frame(48_000.0 / 16_384.0, 2_048.0 / 48_000.0));
    }
    events
}

fn main() {
    let mut draws = Draws(1);
    let mixed: Vec<Event> = (0..4_000).map(|_| draws.event()).collect();
    let settings: Vec<Event> = (0..1_400).map(|_| draws.settings()).collect();
    row("an event of all thirteen kinds", &mixed);
    row("an event of a planner's script", &planned());
    row("a configure", &settings);
}
