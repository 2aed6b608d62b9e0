//! What every field of a script leaves, as the port hands it over: the state, the last accepted frame
//! and a trigger's answer, held against the original's.
use crate::bytes::{encode, SIZE};
use crate::ends::End;
use crate::engine::{Frame, Particles};
use crate::original::Engine;
use crate::part::Part;
use crate::port;
use crate::runner::{run, Answer, SCRIPT_LIMIT};
use crate::scripts::{short_too, UNTOUCHED};

/// The bytes of a state, 8 for each value; and with those of a frame and an answer.
const STATE_SIZE: usize = 8 * 1_773;
const FIELD_SIZE: usize = STATE_SIZE + SIZE + 1;

/// The tags of a trigger and of a reserved one.
const TRIGGERS: [u8; 2] = [6, 13];

/// What the port wants lent: a field takes three bytes or more.
fn room_for(script: &[u8]) -> usize {
    match script.len() {
        0..=SCRIPT_LIMIT => FIELD_SIZE.div_ceil(3) * script.len(),
        _ => FIELD_SIZE,
    }
}

pub struct Left {
    states: Part,
    frames: Part,
    answers: Part,
    others: Part,
    /// What is lent to the port, kept from script to script.
    lent: Vec<u8>,
}

impl Left {
    /// The parts of what the export `call` hands over.
    pub fn new(call: &str, here: bool) -> Self {
        Left {
            states: Part::new(format!("the states of {call}"), here),
            frames: Part::new(format!("the accepted frames of {call}"), here),
            answers: Part::new(format!("the triggers' answers of {call}"), here),
            others: Part::new(format!("the other bytes of {call}"), here),
            lent: Vec::new(),
        }
    }

    pub fn parts(self) -> [Part; 4] {
        [self.states, self.frames, self.answers, self.others]
    }

    /// A case for the state after every field, for every accepted frame and for every trigger. Of the
    /// other bytes three a script: how many there are, with those behind them as they were; the last
    /// accepted frame after the other fields; and 0 for their answer. The script's fields are those of
    /// `ends`.
    pub fn compare(&mut self, name: &str, start: u64, script: &[u8], ends: &[End]) {
        let room = room_for(script);
        if short_too(script) {
            if let Some(count) = self.ask(start, script, room - 1) {
                let same = count == 0 && self.untouched_from(0);
                self.others
                    .add(format_args!("{name}, too little room"), same);
            }
        }
        let Some(count) = self.ask(start, script, room) else {
            return;
        };
        let written = FIELD_SIZE * ends.len();
        let same = count == written && self.untouched_from(written);
        self.others.add(format_args!("{name}, its end"), same);
        let mut last = encode(&Frame::empty());
        let (mut kept, mut silent) = (true, true);
        let mut want = Vec::with_capacity(STATE_SIZE);
        // Whether the script goes bad behind these fields makes no difference.
        let _ = run(start, script, |n, answer, engine: &Engine| {
            let case = format_args!("{name}, field {n}");
            let got = &self.lent[FIELD_SIZE * (n - 1)..FIELD_SIZE * n];
            let (state, behind) = got.split_at(STATE_SIZE);
            let (frame, told) = behind.split_at(SIZE);
            want.clear();
            engine.visit(&mut |_, _, _, value| want.extend(value.code().to_be_bytes()));
            self.states.add(case, state == want);
            match answer {
                Answer::Framed(accepted) => {
                    last = encode(accepted);
                    self.frames.add(case, frame == last);
                }
                _ => kept &= frame == last,
            }
            if TRIGGERS.contains(&ends[n - 1].tag) {
                self.answers.add(case, told == [answer.told()]);
            } else {
                silent &= told == [0];
            }
        });
        self.others.add(format_args!("{name}, a frame kept"), kept);
        self.others.add(format_args!("{name}, no answer"), silent);
    }

    /// Lends so many bytes to the port and answers how many it says it wrote.
    fn ask(&mut self, start: u64, script: &[u8], room: usize) -> Option<usize> {
        self.lent.clear();
        self.lent.resize(room, UNTOUCHED);
        match start {
            0 => port::fields(script, &mut self.lent),
            _ => port::fields_from(start, script, &mut self.lent),
        }
    }

    fn untouched_from(&self, at: usize) -> bool {
        // Some hundred megabytes at times: a part at a time, not a byte.
        const PART: [u8; 4_096] = [UNTOUCHED; 4_096];
        let mut parts = self.lent[at..].chunks(PART.len());
        parts.all(|part| *part == PART[..part.len()])
    }
}
