//! Scripts that meet the limits: 64 places, 64 attempts, 256 sources, retirements on retirements.
use super::script::Script;
use super::values::{hz, rate, settings, usual};
use crate::draws::Draws;
use crate::field::Settings;

/// More long particles than there are places.
pub fn pool(d: &mut Draws) -> Vec<u8> {
    let mut s = Script::at(rate(d));
    s.configure(&Settings {
        enabled: true,
        shape: 0,
        rate_hz: 32.0,
        attack_ms: d.between(500.0, 5_000.0),
        release_ms: 5_000.0,
        partials: 24,
        ..usual(d)
    });
    for slot in 0..9 {
        s.source(slot, hz(d), 0.8, true);
    }
    for _ in 0..6 {
        for _ in 0..d.among(8, 30) {
            s.trigger(d.below(10) as u16);
        }
        s.advance(d.among(1, 3_000)).frame(10.0, 0.02);
        if d.once_in(3) {
            s.retire(d.below(9) as u16).advance(d.among(100, 2_000));
        }
    }
    s.seek(f64::from(d.between(0.0, 9.0))).trigger(2);
    s.advance(9_000)
        .frame(10.0, 0.02)
        .trigger(2)
        .frame(10.0, 0.1);
    s.0
}

/// More attempts than 64 between two frames, of every sort: dropped ones still choose a source.
pub fn attempts(d: &mut Draws) -> Vec<u8> {
    let mut s = Script::at(8_000.0);
    let shape = d.below(2) as u8;
    let c = Settings {
        shape: 0,
        rate_hz: 32.0,
        attack_ms: 0.0,
        release_ms: 5.0,
        hop_samples: 0,
        ..usual(d)
    };
    s.configure(&c);
    for slot in 0..d.among(1, 4) as u16 {
        s.source(slot, hz(d), 0.8, true);
    }
    s.note_input(d.flag());
    for _ in 0..d.among(60, 68) {
        s.trigger(0);
    }
    s.configure(&Settings { shape, ..c });
    s.advance(d.among(10, 9_000));
    // A refused frame does not renew the attempts; an accepted one does.
    s.frame(1.0, -1.0).trigger(0).advance(400);
    s.frame(1.0, 0.01).advance(4_000).frame(1.0, 0.01);
    // No source while note input is present: an attempt without a birth.
    s.note_input(true);
    for slot in 0..4 {
        s.retire(slot);
    }
    s.advance(40_000).source(3, hz(d), 1.0, true).advance(3_000);
    s.frame(1.0, 0.01).advance(2_000).frame(1.0, 0.01);
    s.0
}

/// All 256 sources, then fewer and fewer.
pub fn all_sources(d: &mut Draws) -> Vec<u8> {
    let mut s = Script::at(rate(d));
    for slot in 0..256 {
        s.source(slot, hz(d), d.between(0.1, 1.0), !d.once_in(20));
    }
    s.configure(&Settings {
        enabled: true,
        scheduled: true,
        rate_hz: 32.0,
        ..usual(d)
    });
    for _ in 0..12 {
        s.advance(d.among(300, 3_000)).frame(5.0, 0.05);
        for _ in 0..24 {
            let slot = d.below(257) as u16;
            match d.below(3) {
                0 => s.retire(slot),
                1 => s.release(slot),
                _ => s.source(slot, hz(d), 0.4, d.flag()),
            };
        }
        s.trigger(d.below(256) as u16);
    }
    s.0
}

/// Places end by retirement: twice, by different calls, with frames around the 0.02 s.
pub fn retirements(d: &mut Draws) -> Vec<u8> {
    let rate = d.pick(&[8_000.0_f32, 44_100.0, 48_000.0, 96_000.0, 8_192.0]);
    let fade = (rate * 0.02) as u32;
    let mut c = Settings {
        scheduled: false,
        attack_ms: 100.0,
        release_ms: 3_000.0,
        partials: 8,
        ..settings()
    };
    let mut s = Script::at(rate);
    s.configure(&c);
    for turn in 0..10 {
        for slot in 0..4 {
            s.source(slot, hz(d), 0.9, true).trigger(slot);
        }
        s.advance(d.among(0, fade));
        for _ in 0..2 {
            match d.below(4) {
                0 => {
                    s.seek(turn.into());
                }
                1 => {
                    c.enabled = !c.enabled;
                    s.configure(&c);
                }
                2 => {
                    c.shape = 1 - c.shape;
                    s.configure(&c);
                }
                _ => {
                    s.retire(d.below(4) as u16).retire(1);
                }
            }
            // The pitch of a retired particle stands; a released one still follows its slot.
            s.release(2)
                .source(2, hz(d), 0.5, d.flag())
                .source(1, hz(d), 0.5, true);
            s.advance(d.pick(&[0, 1, fade / 2, fade - 1]))
                .frame(3.0, 0.01);
        }
        s.advance(d.pick(&[0, 1, fade / 2, fade - 1, fade]))
            .frame(3.0, 0.01);
    }
    s.0
}

/// Indices reserved early, used late, twice, or never, from all of u64.
pub fn reserved(d: &mut Draws) -> Vec<u8> {
    let mut s = Script::at(rate(d));
    let mut c = usual(d);
    c.shape = 0;
    c.enabled = true;
    s.configure(&c);
    for slot in 0..5 {
        s.source(slot, hz(d), 0.9, slot != 4);
    }
    for _ in 0..60 {
        let slot = d.below(6) as u16;
        match d.below(6) {
            0 => s.reserve(),
            1 => s.trigger(slot),
            2 => s.reserved(slot, d.word()),
            3 => s.reserved(
                slot,
                d.pick(&[0, 1, u64::MAX, 1 << 63, 1 << 62, 5 | 1 << 61]),
            ),
            4 => s.trigger(d.pick(&[255, 256, 257, 65_535])),
            _ => s.advance(d.among(0, 900)).frame(12.0, 0.03),
        };
    }
    s.frame(12.0, 0.03);
    s.0
}
