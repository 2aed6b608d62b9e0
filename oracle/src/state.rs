//! The whole state by name, after every field of a script. A name that isn't printed again has
//! the value that was printed last.
use crate::engine::Particles;
use crate::runner::{run, Answer, Bad, Ended};
use crate::value::Value;
use std::io::{self, Write};

pub fn state<E: Particles>(start: u64, script: &[u8], out: &mut impl Write) -> io::Result<()> {
    let mut seen: Vec<Value> = Vec::new();
    let mut trouble = Ok(());
    let ended = run(start, script, |field, answer, engine: &E| {
        if trouble.is_ok() {
            trouble = writeln!(out, "field {field} {}", word(answer))
                .and_then(|()| changes(engine, &mut seen, out));
        }
    });
    trouble?;
    match ended {
        Ok(Ended { count, .. }) => writeln!(out, "end {count}"),
        Err(Bad {
            field,
            number,
            place,
        }) => writeln!(out, "field {field} bad {number} at {place}"),
    }
}

fn word(answer: &Answer) -> String {
    match answer {
        Answer::Taken => "taken".into(),
        Answer::Refused(number) => format!("refused {number}"),
        Answer::Born => "born".into(),
        Answer::NotEligible => "not eligible".into(),
        Answer::Dropped => "dropped".into(),
        Answer::Framed(_) => "framed".into(),
    }
}

fn changes<E: Particles>(
    engine: &E,
    seen: &mut Vec<Value>,
    out: &mut impl Write,
) -> io::Result<()> {
    let mut at = 0;
    let mut done = Ok(());
    engine.visit(&mut |group, index, field, value| {
        let fresh = match seen.get(at) {
            None => {
                seen.push(value);
                true
            }
            Some(old) => old.code() != value.code(),
        };
        if fresh && done.is_ok() {
            seen[at] = value;
            done = match index {
                None => writeln!(out, "{group} {value}"),
                Some(i) if field.is_empty() => writeln!(out, "{group}[{i}] {value}"),
                Some(i) => writeln!(out, "{group}[{i}].{field} {value}"),
            };
        }
        at += 1;
    });
    done
}
