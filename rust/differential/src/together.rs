//! Banding and judging in one call by both engines, and one after the other by the proved one.

use crate::judging::Answer;
use crate::random::Random;
use crate::refusals::Refusals;
use plain::record_length;
use std::fmt;
use std::io::Write;

/// Numbers on each side of a lent list, which the call may not touch.
const MARGIN: usize = 20;

/// What a call comes to.
#[derive(Debug, Clone, Copy, PartialEq, Eq)]
pub enum Outcome {
    /// The curves, leaves and nodes that banding reports, and what judging answers, which is no refusal.
    Banded([u64; 3], Answer),
    /// The number and the spot of the refusal.
    Refused(u32, u64),
}

use Outcome::{Banded, Refused};

/// Compares on one outline and point after the other, and counts.
pub struct Comparison {
    name: &'static str,
    random: Random,
    /// What was compared so far.
    pub tally: Tally,
}

/// Counts of what was compared.
#[derive(Debug, Clone, Default)]
pub struct Tally {
    /// Calls, each with an outline, a tolerance, an m, a lent list and a point.
    pub calls: u64,
    /// Numbers of lent lists, their margins and the rest past the records included.
    pub numbers: u64,
    /// Points that are on.
    pub on: u64,
    /// Points that are off.
    pub off: u64,
    /// Calls that refuse, by the refusal's number.
    pub refused: Refusals,
}

impl Comparison {
    /// A comparison that reports under a name. What stands in the lent lists follows from the seed.
    pub fn new(name: &'static str, seed: u64) -> Comparison {
        Comparison { name, random: Random::new(seed ^ 0x5eed_0f11_5ea5_0000), tally: Tally::default() }
    }

    /// Bands into a list of `length` numbers and judges a point, in one call and one after the other.
    ///
    /// # Panics
    ///
    /// Where the outcomes or the lists differ, a number that was not to be written has changed, a refusal has
    /// changed any, or the named cover does not hold the point. Prints the input and all outcomes.
    pub fn band_and_judge(
        &mut self,
        outline: &[i32],
        tolerance: i32,
        m: u32,
        length: usize,
        x: i32,
        y: i32,
    ) -> Outcome {
        let noise: Vec<i32> = (0..length + 2 * MARGIN).map(|_| self.random.bits() as i32).collect();
        let lent = MARGIN..MARGIN + length;
        let (mut one, mut two, mut plain) = (noise.clone(), noise.clone(), noise.clone());
        let given = outline.to_vec();
        let together = together(&given, tolerance, m, &mut one[lent.clone()], x, y);
        let apart = apart(outline, tolerance, m, &mut two[lent.clone()], x, y);
        let by_plain = by_plain(outline, tolerance, m, &mut plain[lent], x, y);
        // A plain list has noise wherever nothing is to be written.
        let same_lists = one == two && one == plain && given == outline;
        let right = match together {
            Banded([_, leaves, _], answer) => {
                let written = record_length(m) * leaves as usize;
                answer.is_right(&plain[MARGIN..][..written], m, x, y)
            }
            Refused(..) => one == noise,
        };
        if !(same_lists && right && together == apart && together == by_plain) {
            panic!(
                "{}: the outcomes differ, an answer is wrong, or a number changed\noutline {outline:?}\n\
                 tolerance {tolerance}\nm {m}\nlent numbers {length}\npoint ({x} {y})\ntogether {together:?}\n\
                 one after the other {apart:?}\nplain {by_plain:?}\nthe lists are the same: {same_lists}",
                self.name
            );
        }
        self.count(together, length);
        together
    }

    fn count(&mut self, outcome: Outcome, length: usize) {
        self.tally.calls += 1;
        self.tally.numbers += (length + 2 * MARGIN) as u64;
        match outcome {
            Banded(_, Answer::On { .. }) => self.tally.on += 1,
            Banded(_, _) => self.tally.off += 1,
            Refused(number, _) => self.tally.refused.count(number),
        }
    }

    /// Prints what was compared, also where the test runner keeps a test's output to itself.
    pub fn report(&self) {
        let mut out = std::io::stdout().lock();
        writeln!(out, "{}: {}", self.name, self.tally).expect("standard output takes a line");
    }
}

fn counts(report: contour_band::Report) -> [u64; 3] {
    [report.curves, report.leaves, report.nodes].map(|count| count as u64)
}

/// The proved engine in one call.
fn together(outline: &[i32], tolerance: i32, m: u32, records: &mut [i32], x: i32, y: i32) -> Outcome {
    match contour_band::band_and_judge(outline, tolerance, m, records, x, y) {
        Ok(contour_band::Outcome { report, judgement }) => Banded(counts(report), Ok(judgement).into()),
        Err(refusal) => Refused(refusal.number(), refusal.spot()),
    }
}

/// The proved engine in two calls, the first into a list of its own.
fn apart(outline: &[i32], tolerance: i32, m: u32, records: &mut [i32], x: i32, y: i32) -> Outcome {
    let mut changed = records.to_vec();
    let report = match contour_band::band(outline, tolerance, m, &mut changed) {
        Ok(report) => report,
        Err(refusal) => return Refused(refusal.number(), refusal.spot()),
    };
    match contour_band::judge(&changed[..record_length(m) * report.leaves], m, x, y).into() {
        Answer::Refused(number, spot) => Refused(number, spot),
        answer => {
            records.copy_from_slice(&changed);
            Banded(counts(report), answer)
        }
    }
}

/// The plain engine in one call.
fn by_plain(outline: &[i32], tolerance: i32, m: u32, records: &mut [i32], x: i32, y: i32) -> Outcome {
    match plain::band_and_judge(outline, tolerance, m, records, x, y) {
        Ok((report, judgement)) => Banded([report.curves, report.leaves, report.nodes], Ok(judgement).into()),
        Err(refusal) => Refused(refusal.number(), refusal.spot()),
    }
}

impl fmt::Display for Tally {
    fn fmt(&self, f: &mut fmt::Formatter<'_>) -> fmt::Result {
        write!(
            f,
            "{} calls and {} numbers compared; on {}, off {}, refused by number {}",
            self.calls, self.numbers, self.on, self.off, self.refused
        )
    }
}
