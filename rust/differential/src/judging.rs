//! One leaf list, m and point to both engines, and what they answer compared: on, off and refusals, the
//! record and the cover named; and both with the first that holds the point when each is tried by itself.

use crate::covers::{holders, witness_of};
use crate::curves::{curves, parameter};
use crate::refusals::Refusals;
use plain::record_length;
use std::fmt;
use std::io::Write;

/// What an engine answers.
#[derive(Debug, Clone, Copy, PartialEq, Eq)]
pub enum Answer {
    /// The record and the cover that it names.
    On {
        /// The number of the record, from 0.
        leaf: usize,
        /// The cover of that record.
        cover: usize,
    },
    /// No cover holds the point.
    Off,
    /// The number and the spot of its refusal.
    Refused(u32, u64),
}

use Answer::{Off, On, Refused};

impl Answer {
    /// Whether the point is on.
    pub fn is_on(self) -> bool {
        matches!(self, On { .. })
    }

    /// Whether the answer is right of a list that passes the checks: the record and the cover that it
    /// names are the first that hold the point, and off is said only where none does.
    pub fn is_right(self, leaves: &[i32], m: u32, x: i32, y: i32) -> bool {
        match self {
            On { leaf, cover } => holders(leaves, m, x, y).next() == Some((leaf, cover)),
            Off => holders(leaves, m, x, y).next().is_none(),
            Refused(..) => true,
        }
    }
}

impl From<Result<contour_band::Judgement, contour_band::Refusal>> for Answer {
    fn from(answer: Result<contour_band::Judgement, contour_band::Refusal>) -> Answer {
        match answer {
            Ok(contour_band::Judgement::On { leaf, cover }) => On { leaf, cover },
            Ok(contour_band::Judgement::Off) => Off,
            Err(refusal) => Refused(refusal.number(), refusal.spot()),
        }
    }
}

impl From<Result<plain::Judgement, plain::Refusal>> for Answer {
    fn from(answer: Result<plain::Judgement, plain::Refusal>) -> Answer {
        match answer {
            Ok(plain::Judgement::On { leaf, cover }) => On { leaf, cover },
            Ok(plain::Judgement::Off) => Off,
            Err(refusal) => Refused(refusal.number(), refusal.spot()),
        }
    }
}

/// An outline with the records that the proved engine writes for it.
#[derive(Debug, Clone)]
pub struct Band<'a> {
    /// The outline.
    pub outline: &'a [i32],
    /// The tolerance at which it is accepted.
    pub tolerance: i32,
    /// The number of pieces.
    pub m: u32,
    /// The records, without the rest of the lent list.
    pub records: Vec<i32>,
}

impl<'a> Band<'a> {
    /// The band of an outline, or the number of the refusal.
    pub fn new(outline: &'a [i32], tolerance: i32, m: u32) -> Result<Band<'a>, u32> {
        let mut records = vec![0; record_length(8) * 64 * 256];
        let report = contour_band::band(outline, tolerance, m, &mut records).map_err(|r| r.number())?;
        records.truncate(record_length(m) * report.leaves);
        Ok(Band { outline, tolerance, m, records })
    }
}

/// Compares the engines on one list and point after the other, and counts.
pub struct Comparison {
    name: &'static str,
    given: Vec<i32>,
    /// What was compared so far.
    pub tally: Tally,
}

/// Counts of what was compared.
#[derive(Debug, Clone, Default)]
pub struct Tally {
    /// Leaf lists with a point.
    pub pairs: u64,
    /// Points that are on.
    pub on: u64,
    /// Points that are on, by the cover named.
    pub by_cover: [u64; 8],
    /// Points that several covers hold.
    pub shared: u64,
    /// Points that are off.
    pub off: u64,
    /// Answers that refuse, by the refusal's number.
    pub refused: Refusals,
    /// Points that equal a curve at a rational parameter; all of them are on.
    pub of_curves: u64,
    /// Points that are on a band and lie within the tolerance of a curve.
    pub near: u64,
}

impl Comparison {
    /// A comparison that reports under a name.
    pub fn new(name: &'static str) -> Comparison {
        Comparison { name, given: Vec::new(), tally: Tally::default() }
    }

    /// Judges with both engines. Returns the answer of the proved one.
    ///
    /// # Panics
    ///
    /// Where the engines do not agree, an answer is not right, or the list has changed. Prints the
    /// input and both answers.
    pub fn judge(&mut self, leaves: &[i32], m: u32, x: i32, y: i32) -> Answer {
        self.given.clear();
        self.given.extend_from_slice(leaves);
        let proved = Answer::from(contour_band::judge(&self.given, m, x, y));
        let plain = Answer::from(plain::judge(leaves, m, x, y));
        if proved != plain || !proved.is_right(leaves, m, x, y) || self.given != leaves {
            let (name, given) = (self.name, &self.given);
            panic!(
                "{name}: the engines differ, an answer is wrong, or the list changed\nleaves {leaves:?}\n\
                 m {m}\npoint ({x} {y})\nproved answers {proved:?}\nplain answers {plain:?}\nleaves after {given:?}"
            );
        }
        self.tally.pairs += 1;
        match proved {
            On { cover, .. } => {
                self.tally.on += 1;
                self.tally.by_cover[cover] += 1;
                self.tally.shared += u64::from(holders(leaves, m, x, y).nth(1).is_some());
            }
            Off => self.tally.off += 1,
            Refused(number, _) => self.tally.refused.count(number),
        }
        proved
    }

    /// Judges a point against a band.
    ///
    /// # Panics
    ///
    /// As for [`Comparison::judge`], and where a point that is on is not within the tolerance of the
    /// record's curve, at the parameter that the cover's fraction gives.
    pub fn judge_band(&mut self, band: &Band, x: i32, y: i32) -> Answer {
        let Band { outline, tolerance, m, ref records } = *band;
        let answer = self.judge(records, m, x, y);
        if let On { leaf, cover } = answer {
            let record = &records[record_length(m) * leaf..][..record_length(m)];
            let s = witness_of(record, cover, x, y).expect("the cover holds the point");
            let (p, q) = parameter(record[1], m, cover, s);
            let curve = curves(outline)[record[0] as usize];
            assert!(
                curve.within(p, q, tolerance, x, y),
                "({x} {y}) is on by record {leaf} and far from its curve at {p}/{q}\n\
                 outline {outline:?}, tolerance {tolerance}, m {m}"
            );
            self.tally.near += 1;
        }
        answer
    }

    /// Judges a point that equals a curve of the band's outline at some rational parameter.
    ///
    /// # Panics
    ///
    /// As for [`Comparison::judge_band`], and where the point is not on.
    pub fn judge_of_curve(&mut self, band: &Band, (x, y): (i32, i32)) {
        let answer = self.judge_band(band, x, y);
        let Band { outline, tolerance, m, .. } = band;
        assert!(
            answer.is_on(),
            "({x} {y}) equals a curve and is {answer:?}\noutline {outline:?}, tolerance {tolerance}, m {m}"
        );
        self.tally.of_curves += 1;
    }

    /// Prints what was compared, also where the test runner keeps a test's output to itself.
    pub fn report(&self) {
        let mut out = std::io::stdout().lock();
        writeln!(out, "{}: {}", self.name, self.tally).expect("standard output takes a line");
    }
}

impl fmt::Display for Tally {
    fn fmt(&self, f: &mut fmt::Formatter<'_>) -> fmt::Result {
        write!(
            f,
            "{} lists and points compared; on {}, by cover {:?}, by several covers {}, off {}, \
             refused by number {}; {} equal a curve, {} on and near one",
            self.pairs,
            self.on,
            self.by_cover,
            self.shared,
            self.off,
            self.refused,
            self.of_curves,
            self.near
        )
    }
}
