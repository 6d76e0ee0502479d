//! One outline, in integers or in binary64, or list of points, tolerance, m and lent list to both engines, and what they
//! answer compared.

use crate::random::Random;
use crate::refusals::Refusals;
use plain::record_length;
use std::fmt;
use std::io::Write;

/// Numbers on each side of a lent list, which no engine may touch.
const MARGIN: usize = 20;

/// Enough numbers for 64 curves of 256 leaves and 4,200 of one, with eight pieces, and some to spare.
const LONGEST: usize = record_length(8) * (64 * 256 + 4_200) + 1_000;

/// What an engine answers.
#[derive(Debug, Clone, Copy, PartialEq, Eq)]
pub enum Answer {
    /// The curves, leaves and nodes that it reports.
    Accepted {
        /// Curves of the outline.
        curves: u64,
        /// Records written.
        leaves: u64,
        /// Nodes met.
        nodes: u64,
    },
    /// The number and the spot of its refusal.
    Refused(u32, u64),
}

use Answer::{Accepted, Refused};

/// Who calls banding.
#[derive(Debug, Clone, Copy, PartialEq, Eq)]
pub enum Caller {
    /// A caller who gives lists.
    Lists,
    /// The bench station.
    Station,
    /// A caller who gives the points of a B-spline.
    Splines,
}

/// Compares the engines on one input after the other, and counts.
pub struct Comparison {
    name: &'static str,
    caller: Caller,
    noise: Vec<i32>,
    proved: Vec<i32>,
    plain: Vec<i32>,
    /// How many numbers at the front of the lent list were last written.
    written: usize,
    random: Random,
    /// What was compared so far.
    pub tally: Tally,
}

/// Counts of what was compared.
#[derive(Debug, Clone, Default)]
pub struct Tally {
    /// Outlines or lists of points, each with one tolerance or more and one lent list or more.
    pub outlines: u64,
    /// Answers.
    pub answers: u64,
    /// Numbers of lent lists, their margins and the rest past the records included.
    pub numbers: u64,
    /// Answers that accept, by m from 1.
    pub accepted: [u64; 8],
    /// Answers that refuse, by the refusal's number.
    pub refused: Refusals,
    /// Leaves, by depth.
    pub leaves: [u64; 9],
}

impl Comparison {
    /// A comparison that reports under a name. What stands in the lent lists follows from the seed.
    pub fn new(name: &'static str, seed: u64) -> Comparison {
        Comparison::of(Caller::Lists, name, seed)
    }

    /// The same for any caller.
    pub fn of(caller: Caller, name: &'static str, seed: u64) -> Comparison {
        let mut random = Random::new(seed ^ 0x5eed_0f11_5ea5_0000);
        let noise = (0..LONGEST + 2 * MARGIN)
            .map(|_| match random.below(16) {
                0 => random.pick(&[i32::MIN, i32::MAX, 0, -1]),
                _ => random.bits() as i32,
            })
            .collect();
        let tally = Tally::default();
        Comparison { name, caller, noise, proved: Vec::new(), plain: Vec::new(), written: 0, random, tally }
    }

    /// Bands with both engines into lists of `length` numbers. Returns the answer that they share.
    ///
    /// # Panics
    ///
    /// Where an answer or a number differs, or a number that was not to be written has changed.
    /// Prints the input and both answers.
    pub fn band(&mut self, outline: &[i32], tolerance: i32, m: u32, length: usize) -> Answer {
        let caller = self.caller;
        let given = outline.to_vec();
        let proved = |records: &mut [i32]| by_proved(caller, &given, tolerance, m, records);
        let plain = |records: &mut [i32]| by_plain(caller, outline, tolerance, m, records);
        let answer = self.compare(&outline, (tolerance, m), length, proved, plain);
        assert_eq!(given, outline, "{}: the outline changed", self.name);
        answer
    }

    /// Bands an outline in binary64 with both engines into lists of `length` numbers. Returns the answer that they share.
    ///
    /// # Panics
    ///
    /// Where an answer or a number differs, or a number that was not to be written has changed.
    /// Prints the input and both answers.
    pub fn band_binary64(&mut self, outline: &[f64], tolerance: i32, m: u32, length: usize) -> Answer {
        let proved =
            |records: &mut [i32]| proved_answer(contour_band::binary64_band(outline, tolerance, m, records));
        let plain = |records: &mut [i32]| plain_answer(plain::binary64_band(outline, tolerance, m, records));
        self.compare(&outline, (tolerance, m), length, proved, plain)
    }

    /// Lends equal lists to both engines, and compares what they answer and write.
    fn compare(
        &mut self,
        outline: &dyn fmt::Debug,
        (tolerance, m): (i32, u32),
        length: usize,
        proved: impl FnOnce(&mut [i32]) -> Answer,
        plain: impl FnOnce(&mut [i32]) -> Answer,
    ) -> Answer {
        // Other noise at the same place from call to call.
        let start = self.random.below(LONGEST.saturating_sub(length) + 1);
        let noise = &self.noise[start..][..length + 2 * MARGIN];
        for list in [&mut self.proved, &mut self.plain] {
            list.clear();
            list.extend_from_slice(noise);
        }
        let lent = MARGIN..MARGIN + length;
        let proved = proved(&mut self.proved[lent.clone()]);
        let plain = plain(&mut self.plain[lent]);
        self.written = match plain {
            Accepted { leaves, .. } => record_length(m) * leaves as usize,
            Refused(..) => 0,
        };
        let written = MARGIN..MARGIN + self.written;
        let stays = |list: &[i32]| {
            list[..written.start] == noise[..written.start] && list[written.end..] == noise[written.end..]
        };
        let alike = proved == plain && self.proved == self.plain;
        if !alike || !stays(&self.proved) {
            self.fail(outline, (tolerance, m), length, proved, plain);
        }
        self.count(plain, m);
        plain
    }

    /// Bands into an empty list, one a number short, an exact one and a longer one, as far as the
    /// outline has leaves. Returns the answer for the longer one.
    pub fn band_into_every_length(&mut self, outline: &[i32], tolerance: i32, m: u32) -> Answer {
        let empty = self.band(outline, tolerance, m, 0);
        let Refused(8, leaves) = empty else {
            let some = self.random.below(100);
            assert_eq!(self.band(outline, tolerance, m, some), empty);
            return empty;
        };
        let exact = record_length(m) * leaves as usize;
        assert_eq!(self.band(outline, tolerance, m, exact - 1), empty);
        let accepted = self.band(outline, tolerance, m, exact);
        assert!(matches!(accepted, Accepted { .. }));
        let longer = exact + 1 + self.random.below(60);
        assert_eq!(self.band(outline, tolerance, m, longer), accepted);
        accepted
    }

    /// The records that were last written: both engines wrote the same.
    pub fn records(&self) -> &[i32] {
        &self.plain[MARGIN..MARGIN + self.written]
    }

    /// Prints what was compared, also where the test runner keeps a test's output to itself.
    pub fn report(&self) {
        let mut out = std::io::stdout().lock();
        writeln!(out, "{}: {}", self.name, self.tally).expect("standard output takes a line");
    }

    fn count(&mut self, answer: Answer, m: u32) {
        self.tally.answers += 1;
        self.tally.numbers += self.plain.len() as u64;
        match answer {
            Accepted { .. } => self.tally.accepted[m as usize - 1] += 1,
            Refused(number, _) => self.tally.refused.count(number),
        }
        for record in self.plain[MARGIN..][..self.written].chunks_exact(record_length(m)) {
            self.tally.leaves[record[1].ilog2() as usize] += 1;
        }
    }

    fn fail(
        &self,
        outline: &dyn fmt::Debug,
        (tolerance, m): (i32, u32),
        length: usize,
        proved: Answer,
        plain: Answer,
    ) -> ! {
        let mut message = format!("{}: the engines differ, or a number changed\n", self.name);
        message += &format!("outline {outline:?}\ntolerance {tolerance}\nm {m}\nlent numbers {length}\n");
        message += &format!("proved answers {proved:?}\nplain answers {plain:?}\n");
        let differs = |i: &usize| self.proved[*i] != self.plain[*i];
        for i in (0..self.plain.len()).filter(differs).take(20) {
            let (proved, plain) = (self.proved[i], self.plain[i]);
            let index = i as i64 - MARGIN as i64;
            message += &format!("records[{index}]: proved {proved}, plain {plain}\n");
        }
        panic!("{message}");
    }
}

fn by_proved(caller: Caller, outline: &[i32], tolerance: i32, m: u32, records: &mut [i32]) -> Answer {
    let band = match caller {
        Caller::Lists => contour_band::band,
        Caller::Station => contour_band::station_band,
        Caller::Splines => contour_band::spline_band,
    };
    proved_answer(band(outline, tolerance, m, records))
}

/// What the proved engine answers.
pub(crate) fn proved_answer(answer: Result<contour_band::Report, contour_band::Refusal>) -> Answer {
    match answer {
        Ok(contour_band::Report { curves, leaves, nodes }) => {
            Accepted { curves: curves as u64, leaves: leaves as u64, nodes: nodes as u64 }
        }
        Err(refusal) => Refused(refusal.number(), refusal.spot()),
    }
}

fn by_plain(caller: Caller, outline: &[i32], tolerance: i32, m: u32, records: &mut [i32]) -> Answer {
    let band = match caller {
        Caller::Lists => plain::band,
        Caller::Station => plain::station_band,
        Caller::Splines => plain::spline_band,
    };
    plain_answer(band(outline, tolerance, m, records))
}

/// What the plain engine answers.
pub(crate) fn plain_answer(answer: Result<plain::Report, plain::Refusal>) -> Answer {
    match answer {
        Ok(plain::Report { curves, leaves, nodes }) => Accepted { curves, leaves, nodes },
        Err(refusal) => Refused(refusal.number(), refusal.spot()),
    }
}

impl fmt::Display for Tally {
    fn fmt(&self, f: &mut fmt::Formatter<'_>) -> fmt::Result {
        write!(
            f,
            "{} outlines, {} answers and {} numbers compared; accepted by m {:?}, refused by number {}, leaves by depth {:?}",
            self.outlines,
            self.answers,
            self.numbers,
            self.accepted,
            self.refused,
            self.leaves
        )
    }
}
