//! One outline, tolerance, m and lent list to both engines, and what they foretell compared, with each other and with the
//! band of the outline.

use crate::outlines::starts;
use crate::random::Random;
use crate::refusals::Refusals;
use plain::record_length;
use std::fmt;
use std::io::Write;

/// Numbers on each side of a lent list, which no engine may touch.
const MARGIN: usize = 20;

/// What an engine answers.
#[derive(Debug, Clone, Copy, PartialEq, Eq)]
pub enum Answer {
    /// The leaves and nodes that it foretells, 0 and 0 where a curve has no depth.
    Told {
        /// The most leaves.
        leaves: u64,
        /// The most nodes.
        nodes: u64,
    },
    /// The number and the spot of its refusal.
    Refused(u32, u64),
}

use Answer::{Refused, Told};

/// Compares the engines on one input after the other, and counts.
pub struct Comparison {
    name: &'static str,
    proved: Vec<i32>,
    plain: Vec<i32>,
    /// How many numbers at the front of the lent list were last written.
    written: usize,
    random: Random,
    /// What was compared so far.
    pub tally: Tally,
}

/// Counts of what was compared.
#[derive(Debug, Clone, Default)]
pub struct Tally {
    /// Outlines, each with one tolerance or more and one lent list or more.
    pub outlines: u64,
    /// Answers.
    pub answers: u64,
    /// Numbers of lent lists, their margins and the rest past the depths included.
    pub numbers: u64,
    /// Answers that foretell leaves, by m from 1.
    pub told: [u64; 8],
    /// Answers that foretell none, since a curve has no depth.
    pub none: u64,
    /// Answers that refuse, by the refusal's number.
    pub refused: Refusals,
    /// Depths by their number, and last the curves without one.
    pub depths: [u64; 10],
    /// Bands that were compared with what was foretold of them.
    pub bands: u64,
}

impl Comparison {
    /// A comparison that reports under a name. What stands in the lent lists follows from the seed.
    pub fn new(name: &'static str, seed: u64) -> Comparison {
        let random = Random::new(seed ^ 0xf0e7_0f11_5ea5_0000);
        Comparison {
            name,
            proved: Vec::new(),
            plain: Vec::new(),
            written: 0,
            random,
            tally: Tally::default(),
        }
    }

    /// Foretells with both engines into lists of `length` numbers. Returns the answer that they share.
    ///
    /// # Panics
    ///
    /// Where an answer or a number differs, or a number that was not to be written has changed.
    /// Prints the input and both answers.
    pub fn foretell(&mut self, outline: &[i32], tolerance: i32, m: u32, length: usize) -> Answer {
        let noise: Vec<i32> = (0..length + 2 * MARGIN).map(|_| self.random.bits() as i32).collect();
        (self.proved, self.plain) = (noise.clone(), noise.clone());
        let lent = MARGIN..MARGIN + length;
        let given = outline.to_vec();
        let proved = by_proved(&given, tolerance, m, &mut self.proved[lent.clone()]);
        let plain = by_plain(outline, tolerance, m, &mut self.plain[lent]);
        self.written = match plain {
            Told { .. } => starts(outline).len(),
            Refused(..) => 0,
        };
        let written = MARGIN..MARGIN + self.written;
        let stays = self.proved[..written.start] == noise[..written.start]
            && self.proved[written.end..] == noise[written.end..];
        let alike = proved == plain && self.proved == self.plain && given == outline;
        assert!(
            alike && stays,
            "{}: the engines differ, or a number changed\noutline {outline:?}\ntolerance {tolerance}\nm {m}\n\
            lent numbers {length}\nproved answers {proved:?} {:?}\nplain answers {plain:?} {:?}",
            self.name,
            &self.proved[MARGIN..written.end],
            &self.plain[MARGIN..written.end],
        );
        self.count(plain, m);
        plain
    }

    /// Foretells into an empty list, one a number short, an exact one and a longer one, as far as the
    /// outline passes. Returns the answer for the longer one.
    pub fn into_every_length(&mut self, outline: &[i32], tolerance: i32, m: u32) -> Answer {
        self.tally.outlines += 1;
        let empty = self.foretell(outline, tolerance, m, 0);
        let Refused(8, curves) = empty else {
            let some = self.random.below(100);
            assert_eq!(self.foretell(outline, tolerance, m, some), empty);
            return empty;
        };
        let exact = curves as usize;
        assert_eq!(self.foretell(outline, tolerance, m, exact - 1), empty);
        let told = self.foretell(outline, tolerance, m, exact);
        assert!(matches!(told, Told { .. }));
        let longer = exact + 1 + self.random.below(60);
        assert_eq!(self.foretell(outline, tolerance, m, longer), told);
        told
    }

    /// Foretells, and bands the outline with just so many records lent as are foretold: it is accepted, with no
    /// more leaves and nodes, and no leaf is deeper than its curve's depth. Where nothing is foretold, banding is not
    /// tried, unless foretelling refuses: then it refuses alike.
    pub fn against_the_band(&mut self, outline: &[i32], tolerance: i32, m: u32) -> Answer {
        let answer = self.into_every_length(outline, tolerance, m);
        self.tally.bands += 1;
        match answer {
            Told { leaves: 0, .. } => self.tally.bands -= 1,
            Told { leaves, nodes } => {
                let mut records = vec![0; record_length(m) * leaves as usize];
                let report = contour_band::band(outline, tolerance, m, &mut records);
                let report = report.expect("what is foretold is accepted");
                assert!(
                    report.leaves as u64 <= leaves && report.nodes as u64 <= nodes,
                    "{outline:?} {tolerance} {m}"
                );
                records.truncate(record_length(m) * report.leaves);
                for record in records.chunks_exact(record_length(m)) {
                    let depth = record[1].ilog2() as i32;
                    assert!(depth <= self.depths()[record[0] as usize], "{outline:?} {tolerance} {m}");
                }
            }
            Refused(number, spot) => {
                let refusal = contour_band::band(outline, tolerance, m, &mut []).expect_err("it is refused");
                assert_eq!((refusal.number(), refusal.spot()), (number, spot));
            }
        }
        answer
    }

    /// The depths that were last written: both engines wrote the same.
    pub fn depths(&self) -> &[i32] {
        &self.plain[MARGIN..MARGIN + self.written]
    }

    /// Prints what was compared, also where the test runner keeps a test's output to itself.
    pub fn report(&self) {
        let mut out = std::io::stdout().lock();
        writeln!(out, "{}: {}", self.name, self.tally).expect("standard output takes a line");
    }

    fn count(&mut self, answer: Answer, m: u32) {
        self.tally.answers += 1;
        self.tally.numbers += self.plain.len() as u64;
        match answer {
            Told { leaves: 0, .. } => self.tally.none += 1,
            Told { .. } => self.tally.told[m as usize - 1] += 1,
            Refused(number, _) => self.tally.refused.count(number),
        }
        for &depth in &self.plain[MARGIN..][..self.written] {
            self.tally.depths[if depth < 0 { 9 } else { depth as usize }] += 1;
        }
    }
}

fn by_proved(outline: &[i32], tolerance: i32, m: u32, depths: &mut [i32]) -> Answer {
    match contour_band::foretell(outline, tolerance, m, depths) {
        Ok(Some(contour_band::Foretold { leaves, nodes })) => {
            Told { leaves: leaves as u64, nodes: nodes as u64 }
        }
        Ok(None) => Told { leaves: 0, nodes: 0 },
        Err(refusal) => Refused(refusal.number(), refusal.spot()),
    }
}

fn by_plain(outline: &[i32], tolerance: i32, m: u32, depths: &mut [i32]) -> Answer {
    match plain::foretell(outline, tolerance, m, depths) {
        Ok(plain::Foretold { leaves, nodes }) => Told { leaves, nodes },
        Err(refusal) => Refused(refusal.number(), refusal.spot()),
    }
}

impl fmt::Display for Tally {
    fn fmt(&self, f: &mut fmt::Formatter<'_>) -> fmt::Result {
        write!(
            f,
            "{} outlines, {} answers and {} numbers compared; told by m {:?}, none {}, refused by number {}, \
            depths {:?}, bands {}",
            self.outlines,
            self.answers,
            self.numbers,
            self.told,
            self.none,
            self.refused,
            self.depths,
            self.bands
        )
    }
}
