//! The oracle: the original Rust with our functions, and an independent reading of 01 around it.
mod arguments;
mod bits;
mod bytes;
mod calls;
mod compare;
mod cuts;
mod digest;
mod draws;
mod elementary;
mod encoder;
mod ends;
mod engine;
mod events;
mod exact;
mod filing;
mod gen;
mod late;
mod left;
mod lent;
#[cfg(linked)]
mod linked;
mod listing;
mod marked;
mod mask;
mod masks;
mod ours;
mod part;
mod port;
mod probes;
mod rates;
mod reached;
mod record_bytes;
mod recorded;
mod recording;
mod register;
mod scripts;
#[cfg(not(linked))]
mod standin;
mod state;
mod stored;
mod value;
mod whole;
mod writing;

/// The original with our functions.
#[allow(dead_code, clippy::all)]
mod original {
    include!(concat!(env!("OUT_DIR"), "/original.rs"));
}

/// The original with nothing substituted.
#[allow(dead_code, clippy::all)]
mod plain {
    include!(concat!(env!("OUT_DIR"), "/plain.rs"));
}

/// 01 around the engine, with order 3's numbers and places. It goes through the build, so that a mutant
/// may change it.
mod field {
    include!(concat!(env!("OUT_DIR"), "/field.rs"));
}
mod runner {
    include!(concat!(env!("OUT_DIR"), "/runner.rs"));
}

/// Order 1's milliseconds, as a mutant may change them too.
mod milliseconds {
    include!(concat!(env!("OUT_DIR"), "/milliseconds.rs"));
}

/// Order 5's numbers and records, likewise.
mod tenths {
    include!(concat!(env!("OUT_DIR"), "/tenths.rs"));
}
mod records {
    include!(concat!(env!("OUT_DIR"), "/records.rs"));
}

use std::io::{self, Read, Write};
use std::process::ExitCode;

const USAGE: &str = "\
oracle listing [HOW] < script     the listing
oracle port < script              the listing that the port prints
oracle bytes < script             the last frame's 2,308 bytes; the status is the entry's answer
oracle state [HOW] < script       every field of the state by name, after every field
oracle gen SEED KIND > script     a script
oracle longer SEED KIND > script  the same with ten times the samples in every advance
oracle start SEED KIND            the late start of that script
oracle kinds                      the kinds of scripts
oracle compare N BASE STEPS       compares the port with the original on N scripts, as they are and longer, each
                                  as far as a run has at most so many samples and fields; BASE chooses all seeds;
                                  status 1 on a difference, or where something can't be compared
oracle calls SEED N               N rounds of single functions of the original, arguments and answers
oracle masks SEED N               N mask calls, bin tables and attenuations, as short numbers
oracle stored FOLDER < list       the scripts of a list with their answers; examples stand in FOLDER
oracle digest N                   a line for each of N scripts of every kind
HOW is plain (with std's functions), from START (on an engine that has counted so many samples), or both
";

fn main() -> ExitCode {
    let words: Vec<String> = std::env::args().skip(1).collect();
    let words: Vec<&str> = words.iter().map(String::as_str).collect();
    match command(&words) {
        Ok(status) => ExitCode::from(status),
        Err(e) => {
            eprintln!("oracle: {e}");
            ExitCode::from(2)
        }
    }
}

fn command(words: &[&str]) -> io::Result<u8> {
    let mut out = io::BufWriter::new(io::stdout().lock());
    match words {
        ["listing", how @ ..] => {
            let text = match start_of(how) {
                Some((start, false)) => listing::listing::<original::Engine>(start, &input()?),
                Some((start, true)) => listing::listing::<plain::Engine>(start, &input()?),
                None => return usage(),
            };
            write!(out, "{text}")?;
        }
        ["port"] => {
            let script = input()?;
            let mut lent = vec![0; scripts::room_for(&script)];
            let Some(length) = port::listing(&script, &mut lent) else {
                return Err(io::Error::other("the archives have no listing"));
            };
            out.write_all(&lent[..length])?;
        }
        ["bytes"] => {
            let mut lent = [0; bytes::SIZE];
            let answer = bytes::last_frame::<original::Engine>(&input()?, &mut lent);
            if answer == 0 {
                out.write_all(&lent)?;
            }
            out.flush()?;
            return Ok(answer as u8);
        }
        ["state", how @ ..] => match start_of(how) {
            Some((start, false)) => {
                state::state::<original::Engine>(start, &input()?, &mut out)?;
            }
            Some((start, true)) => state::state::<plain::Engine>(start, &input()?, &mut out)?,
            None => return usage(),
        },
        [what @ ("gen" | "longer" | "start"), seed, name] => {
            let (Ok(seed), Some(kind)) = (seed.parse(), gen::named(name)) else {
                return usage();
            };
            let script = gen::script(seed, kind);
            match *what {
                "gen" => out.write_all(&script)?,
                "longer" => out.write_all(&gen::longer(&script))?,
                _ => writeln!(out, "{}", late::start(seed, &script))?,
            }
        }
        ["kinds"] => {
            for kind in gen::KINDS {
                writeln!(out, "{:12} {}", kind.name, kind.what)?;
            }
        }
        ["compare", count, base, steps] => {
            let (Ok(count), Ok(base), Ok(steps)) = (count.parse(), base.parse(), steps.parse())
            else {
                return usage();
            };
            return Ok(u8::from(!compare::compare(count, base, steps, &mut out)?));
        }
        ["calls", seed, rounds] => {
            let (Ok(seed), Ok(rounds)) = (seed.parse(), rounds.parse()) else {
                return usage();
            };
            write!(out, "{}", calls::lines(seed, rounds))?;
        }
        ["masks", seed, count] => {
            let (Ok(seed), Ok(count)) = (seed.parse(), count.parse()) else {
                return usage();
            };
            write!(out, "{}", masks::mask_lines(seed, count).0)?;
            write!(out, "{}", masks::bin_lines(seed, count))?;
            write!(out, "{}", masks::attenuation_lines(seed, count))?;
        }
        ["stored", folder] => {
            let list = String::from_utf8_lossy(&input()?).into_owned();
            let Some(cases) = stored::cases(folder.as_ref(), &list) else {
                return usage();
            };
            out.write_all(cases.as_bytes())?;
        }
        ["digest", seeds] => {
            let Ok(seeds) = seeds.parse() else {
                return usage();
            };
            digest::digest(seeds, &mut out)?;
        }
        _ => return usage(),
    }
    out.flush()?;
    Ok(0)
}

/// The start, and whether std's functions serve.
fn start_of(how: &[&str]) -> Option<(u64, bool)> {
    let (plain, rest) = match how {
        ["plain", rest @ ..] => (true, rest),
        rest => (false, rest),
    };
    match rest {
        [] => Some((0, plain)),
        ["from", start] => {
            let start = start.parse().ok()?;
            (start <= runner::SAMPLE_LIMIT).then_some((start, plain))
        }
        _ => None,
    }
}

fn usage() -> io::Result<u8> {
    eprint!("{USAGE}");
    Ok(2)
}

fn input() -> io::Result<Vec<u8>> {
    let mut script = Vec::new();
    io::stdin().lock().read_to_end(&mut script)?;
    Ok(script)
}
