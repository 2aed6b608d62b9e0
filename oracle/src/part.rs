//! A part of the comparison on scripts, events and records: how often the port was asked, and where it
//! differs.
use crate::compare::Sum;
use std::collections::BTreeSet;
use std::fmt::Display;
use std::io::{self, Write};

pub struct Part {
    pub name: String,
    /// Whether the archives have what it asks.
    pub here: bool,
    pub cases: u64,
    pub differing: Vec<String>,
}

impl Part {
    pub fn new(name: String, here: bool) -> Self {
        Part {
            name,
            here,
            cases: 0,
            differing: Vec::new(),
        }
    }
    pub fn add(&mut self, case: impl Display, same: bool) {
        self.cases += 1;
        if !same {
            self.differing.push(case.to_string());
        }
    }
}

/// A part with the numbers that its cases should be answered with: some it must meet, whatever the base.
pub struct Answered {
    part: Part,
    met: BTreeSet<u64>,
}

impl Answered {
    pub fn new(name: &str, here: bool) -> Self {
        Answered {
            part: Part::new(name.into(), here),
            met: BTreeSet::new(),
        }
    }
    pub fn add(&mut self, case: impl Display, answer: u64, same: bool) {
        self.met.insert(answer);
        self.part.add(case, same);
    }
    pub fn tell<W: Write>(&self, answers: &[u64], sum: &mut Sum<W>) -> io::Result<()> {
        sum.counted(&self.part)?;
        if !self.part.here {
            return Ok(());
        }
        let missing = answers.iter().filter(|n| !self.met.contains(n));
        let missing: Vec<String> = missing.map(u64::to_string).collect();
        let name = format!("answers in {}", self.part.name);
        sum.own(&name, answers.len(), &missing)
    }
}
