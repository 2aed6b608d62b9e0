//! The comparison, one line a part, and at the end how many cases there were and how many differ. A
//! part that can't be compared, or has no case, is named, and the comparison fails.
use crate::arguments::{Arguments, ARGUMENTS};
use crate::draws::mixed;
use crate::part::Part;
use crate::probes::{Probe, PROBED, PROBES};
use crate::{
    cuts, elementary, filing, late, lent, marked, masks, ours, rates, reached, recording, scripts,
    writing,
};
use std::io::{self, Write};

/// A part that differs shows this many of its cases.
const SHOWN: usize = 3;

/// Mask calls on which the reading is held against the original.
const MASKS: usize = 2_000;

/// What was compared so far, and how many parts were not. A check of the oracle itself is no case of
/// the port's.
pub struct Sum<'a, W: Write> {
    out: &'a mut W,
    cases: u64,
    differ: u64,
    unsound: u64,
    absent: u64,
}

impl<W: Write> Sum<'_, W> {
    fn part(&mut self, name: &str, cases: u64, differing: &[String]) -> io::Result<()> {
        if cases == 0 {
            return self.absent(&format!("{name} (no case)"));
        }
        self.cases += cases;
        self.differ += differing.len() as u64;
        let found = differing.len();
        self.line(&format!("{name}: {cases} cases, {found} differ"))?;
        self.some(differing)
    }
    pub fn own(&mut self, name: &str, cases: usize, failing: &[String]) -> io::Result<()> {
        self.unsound += failing.len() as u64;
        let found = failing.len();
        self.line(&format!(
            "the oracle itself, {name}: {cases} checks, {found} fail"
        ))?;
        self.some(failing)
    }
    pub fn counted(&mut self, part: &Part) -> io::Result<()> {
        if part.here {
            self.part(&part.name, part.cases, &part.differing)
        } else {
            self.absent(&format!("{} (not in the archives)", part.name))
        }
    }
    fn absent(&mut self, what: &str) -> io::Result<()> {
        self.absent += 1;
        self.line(&format!("NOT COMPARED: {what}"))
    }
    pub fn line(&mut self, line: &str) -> io::Result<()> {
        writeln!(self.out, "{line}")?;
        self.out.flush()
    }
    fn some(&mut self, cases: &[String]) -> io::Result<()> {
        cases
            .iter()
            .take(SHOWN)
            .try_for_each(|case| self.line(&format!("  differs: {case}")))
    }
}

/// Compares with `count` scripts, each as far as a run has at most `limit` steps, and answers whether
/// all was compared and nothing differs. Another base gives other seeds throughout: it is mixed, so
/// that those of bases side by side lie apart, and 0 stays 0.
pub fn compare(count: u64, base: u64, limit: u64, out: &mut impl Write) -> io::Result<bool> {
    let base = mixed(base);
    let mut sum = Sum {
        out,
        cases: 0,
        differ: 0,
        unsound: 0,
        absent: 0,
    };
    let claims = marked::marked();
    let failed: Vec<String> = claims.iter().filter(|c| !c.1).map(|c| c.0.into()).collect();
    sum.own("what 01 and 02 state outright", claims.len(), &failed)?;
    let (_, differ) = masks::mask_lines(base.wrapping_add(1), MASKS);
    let differ = vec!["the original's own gains".to_string(); differ];
    sum.own("the mask where 01 follows the Rust", MASKS, &differ)?;
    let checks = 2 * late::CHECKS as usize;
    sum.own("late starts and skips", checks, &late::failing(base))?;
    let numbers = reached::NUMBERS.len();
    sum.own(
        "refusals that scripts meet",
        numbers,
        &reached::missing(base),
    )?;
    let (checks, failing) = rates::failing(base);
    sum.own("order 1's rates", checks, &failing)?;
    let (checks, failing) = recording::failing();
    sum.own("order 5's table and tenths", checks, &failing)?;
    if ours::LINKED {
        for check in elementary::checks(base) {
            sum.part(&check.name, check.cases, &check.failed)?;
        }
    } else {
        sum.absent("the elementary functions (no libhost.a: std's stand in for them)")?;
    }
    if PROBED {
        for probe in PROBES {
            sum.part(
                &format!("probe {}", probe.name),
                ARGUMENTS,
                &probed(base, probe),
            )?;
        }
        let (calls, differ) = lent::gains_differ(base);
        sum.part("mask calls", calls, &differ)?;
        sum.part("bin tables", lent::TABLES, &lent::tables_differ(base))?;
        sum.part(
            "attenuations",
            lent::ATTENUATIONS,
            &lent::attenuations_differ(base),
        )?;
    } else {
        sum.absent("the single layers (no liboracle_probe.a)")?;
    }
    recording::compare(base, &mut sum)?;
    filing::compare(count, base, limit, &mut sum)?;
    writing::compare(base, &mut sum)?;
    sum.counted(&rates::compare(base))?;
    cuts::compare(count, base, &mut sum)?;
    scripts::compare(count, base, limit, &mut sum)?;
    let (cases, differ) = (sum.cases, sum.differ);
    let left_out = match sum.absent {
        0 => String::new(),
        parts => format!(", {parts} parts NOT COMPARED"),
    };
    sum.line(&format!("{cases} cases, {differ} differ{left_out}"))?;
    Ok(sum.differ == 0 && sum.unsound == 0 && sum.absent == 0)
}

/// The arguments at which the port differs from the Rust.
fn probed(base: u64, probe: &Probe) -> Vec<String> {
    let arguments = Arguments::new(base, probe.name, (probe.edges)());
    let arguments = (probe.exact)(base).into_iter().chain(arguments);
    let compared = arguments.filter_map(|words| Some(((probe.rust)(&words)?, words)));
    let differs = |(want, words): (u64, Vec<u64>)| {
        let got = (probe.port)(&words);
        (got != want).then(|| format!("{words:x?}: Rust {want:x}, port {got:x}"))
    };
    compared
        .take(ARGUMENTS as usize)
        .filter_map(differs)
        .collect()
}
