//! One outline, m and number of leaves to both engines, and the tightest bands that they find compared, with each other,
//! with a trial of every tolerance, and with the bands of the outline.

use crate::refusals::Refusals;
use contour_band::Refusal;
use std::fmt;
use std::io::Write;

/// The least tolerance that is taken.
pub const LEAST: i32 = 2;

/// The largest tolerance that is taken.
pub const WIDEST: i32 = 1_048_576;

/// What an engine answers.
#[derive(Debug, Clone, Copy, PartialEq, Eq)]
pub enum Answer {
    /// The least tolerance that fits.
    Least(i32),
    /// No tolerance fits.
    Nothing,
    /// The number and the spot of its refusal.
    Refused(u32, u64),
}

use Answer::{Least, Nothing, Refused};

/// Compares the engines on one input after the other, and counts.
pub struct Comparison {
    name: &'static str,
    /// What was compared so far.
    pub tally: Tally,
}

/// Counts of what was compared.
#[derive(Debug, Clone, Default)]
pub struct Tally {
    /// Answers.
    pub answers: u64,
    /// Answers that name a tolerance, by m from 1.
    pub least: [u64; 8],
    /// Among them those that name the least tolerance of all, 2.
    pub at_two: u64,
    /// Answers that no tolerance fits.
    pub nothing: u64,
    /// Answers that refuse, by the refusal's number.
    pub refused: Refusals,
    /// Answers that were compared with a trial of every tolerance.
    pub trials: u64,
}

impl Comparison {
    /// A comparison that reports under a name.
    pub fn new(name: &'static str) -> Comparison {
        Comparison { name, tally: Tally::default() }
    }

    /// Asks both engines, and bands the outline at the answer and one below it: at the answer there are at most so many
    /// leaves, one below it there are more, or a node is too wide. Where nothing fits there are more at the largest
    /// tolerance. A refusal is banding's. Returns the answer that they share.
    ///
    /// # Panics
    ///
    /// Where the answers differ, or banding tells something else. Prints the input and both answers.
    pub fn tightest(&mut self, outline: &[i32], m: u32, leaves: usize) -> Answer {
        let proved = answer(contour_band::tightest(outline, m, leaves).map_err(|r| (r.number(), r.spot())));
        let plain = answer(plain::tightest(outline, m, leaves).map_err(|r| (r.number(), r.spot())));
        assert!(
            proved == plain,
            "{}: the engines differ\noutline {outline:?}\nm {m}\nleaves {leaves}\nproved answers {proved:?}\n\
            plain answers {plain:?}",
            self.name,
        );
        let banded = match plain {
            Least(tolerance) => {
                fits(outline, tolerance, m, leaves)
                    && (tolerance == LEAST || !fits(outline, tolerance - 1, m, leaves))
            }
            Nothing => leaves_at(outline, WIDEST, m).is_ok_and(|count| count > leaves),
            Refused(..) => answer(leaves_at(outline, LEAST, m).map(|_| None)) == plain,
        };
        assert!(
            banded,
            "{}: banding differs\noutline {outline:?}\nm {m}\nleaves {leaves}\n{plain:?}",
            self.name
        );
        self.count(plain, m);
        plain
    }

    /// The same, and a trial of every tolerance, which is for outlines that fit soon.
    pub fn by_trial(&mut self, outline: &[i32], m: u32, leaves: usize) -> Answer {
        let found = self.tightest(outline, m, leaves);
        let trial = plain::tightest_by_trial(outline, m, leaves).map_err(|r| (r.number(), r.spot()));
        assert_eq!(answer(trial), found, "{}: {outline:?} {m} {leaves}", self.name);
        self.tally.trials += 1;
        found
    }

    /// Prints what was compared, also where the test runner keeps a test's output to itself.
    pub fn report(&self) {
        let mut out = std::io::stdout().lock();
        writeln!(out, "{}: {}", self.name, self.tally).expect("standard output takes a line");
    }

    fn count(&mut self, answer: Answer, m: u32) {
        self.tally.answers += 1;
        match answer {
            Least(tolerance) => {
                self.tally.least[m as usize - 1] += 1;
                self.tally.at_two += u64::from(tolerance == LEAST);
            }
            Nothing => self.tally.nothing += 1,
            Refused(number, _) => self.tally.refused.count(number),
        }
    }
}

/// How many leaves banding of the proved engine counts, or its refusal.
pub fn leaves_at(outline: &[i32], tolerance: i32, m: u32) -> Result<usize, (u32, u64)> {
    match contour_band::band(outline, tolerance, m, &mut []) {
        Err(Refusal::TooFewRecords { leaves }) => Ok(leaves),
        Err(refusal) => Err((refusal.number(), refusal.spot())),
        Ok(_) => panic!("an outline has a leaf"),
    }
}

/// Whether banding meets no 7 and needs at most so many leaves.
fn fits(outline: &[i32], tolerance: i32, m: u32, leaves: usize) -> bool {
    match leaves_at(outline, tolerance, m) {
        Ok(count) => count <= leaves,
        Err((number, spot)) => {
            assert_eq!(number, 7, "{outline:?} {tolerance} {m} {spot}");
            false
        }
    }
}

fn answer(found: Result<Option<i32>, (u32, u64)>) -> Answer {
    match found {
        Ok(Some(tolerance)) => Least(tolerance),
        Ok(None) => Nothing,
        Err((number, spot)) => Refused(number, spot),
    }
}

impl fmt::Display for Tally {
    fn fmt(&self, f: &mut fmt::Formatter<'_>) -> fmt::Result {
        write!(
            f,
            "{} answers compared; least by m {:?}, of these {} at 2, nothing {}, refused by number {}, trials {}",
            self.answers, self.least, self.at_two, self.nothing, self.refused, self.trials
        )
    }
}
