//! One curve of an outline exchanged by both engines, and what they answer compared, with each other and with the band of
//! the changed outline.

use crate::banding::Answer::{self, Accepted, Refused};
use crate::banding::{plain_answer, proved_answer};
use crate::outlines::starts;
use crate::random::Random;
use crate::refusals::Refusals;
use plain::record_length;
use std::fmt;
use std::io::Write;

/// Numbers on each side of a lent list, which no engine may touch.
const MARGIN: usize = 20;

/// How many numbers a new curve has.
pub const NEW_CURVE: usize = 13;

/// What an exchange is given beside the list.
#[derive(Debug, Clone)]
pub struct Exchange {
    /// The outline as it is.
    pub outline: Vec<i32>,
    /// Its tolerance.
    pub tolerance: i32,
    /// The pieces of a leaf.
    pub m: u32,
    /// The curve that gives way.
    pub number: usize,
    /// The curve that takes its place, and numbers that are not read.
    pub curve: [i32; NEW_CURVE],
    /// How many numbers the records are said to have.
    pub given: usize,
}

impl Exchange {
    /// The changed outline. The number is one of its curves.
    pub fn changed(&self) -> Vec<i32> {
        let starts = starts(&self.outline);
        let end = starts.get(self.number + 1).copied().unwrap_or(self.outline.len());
        let new = numbers_of(&self.curve);
        [&self.outline[..starts[self.number]], new, &self.outline[end..]].concat()
    }
}

/// The numbers of a new curve that are read: those of its degree, or the degree alone where it is none.
pub fn numbers_of(curve: &[i32; NEW_CURVE]) -> &[i32] {
    match curve[0] {
        degree @ 1..=5 => &curve[..3 + 2 * degree as usize],
        _ => &curve[..1],
    }
}

/// A curve with numbers after it that are not read, each of any kind.
pub fn padded(random: &mut Random, curve: &[i32]) -> [i32; NEW_CURVE] {
    let mut padded = [0; NEW_CURVE];
    for number in &mut padded {
        *number =
            if random.one_in(2) { random.bits() as i32 } else { random.pick(&[i32::MIN, i32::MAX, 6, 0]) };
    }
    padded[..curve.len()].copy_from_slice(curve);
    padded
}

/// The records of an outline that banding accepts.
pub fn records_of(outline: &[i32], tolerance: i32, m: u32) -> Result<Vec<i32>, (u32, u64)> {
    let refusal = contour_band::band(outline, tolerance, m, &mut []).expect_err("an outline has a leaf");
    let contour_band::Refusal::TooFewRecords { leaves } = refusal else {
        return Err((refusal.number(), refusal.spot()));
    };
    let mut records = vec![0; leaves * record_length(m)];
    contour_band::band(outline, tolerance, m, &mut records).expect("there is room");
    Ok(records)
}

/// Compares the engines on one input after the other, and counts.
pub struct Comparison {
    name: &'static str,
    /// What was compared so far.
    pub tally: Tally,
}

/// Counts of what was compared.
#[derive(Debug, Clone, Default)]
pub struct Tally {
    /// Answers.
    pub answers: u64,
    /// Numbers of lent lists, their margins and the rest past the records included.
    pub numbers: u64,
    /// Answers that accept, by m from 1.
    pub accepted: [u64; 8],
    /// Answers that accept, by the old degree and the new one, from 1.
    pub degrees: [[u64; 5]; 5],
    /// Answers that accept, with fewer leaves than before, as many, and more.
    pub leaves: [u64; 3],
    /// Answers that refuse, by the refusal's number.
    pub refused: Refusals,
}

impl Comparison {
    /// A comparison that reports under a name.
    pub fn new(name: &'static str) -> Comparison {
        Comparison { name, tally: Tally::default() }
    }

    /// Exchanges a curve with both engines, each in a copy of a list, and where it is accepted bands the changed outline
    /// into a third copy. A refusal leaves the list as it was. Returns the answer that they share.
    ///
    /// # Panics
    ///
    /// Where an answer or a number differs. Prints the input and all answers.
    pub fn exchange(&mut self, input: &Exchange, list: &[i32]) -> Answer {
        let mut by_proved = [&[7; MARGIN], list, &[7; MARGIN]].concat();
        let mut by_plain = by_proved.clone();
        let mut anew = by_proved.clone();
        let lent = MARGIN..MARGIN + list.len();
        let Exchange { outline, tolerance, m, number, curve, given } = input;
        let before = outline.clone();
        let proved = contour_band::exchange(
            outline,
            *tolerance,
            *m,
            *number,
            *curve,
            *given,
            &mut by_proved[lent.clone()],
        );
        let proved = proved_answer(proved);
        let plain =
            plain::exchange(outline, *tolerance, *m, *number, *curve, *given, &mut by_plain[lent.clone()]);
        let plain = plain_answer(plain);
        let banded = match plain {
            Refused(..) => plain,
            Accepted { .. } => {
                let banded = contour_band::band(&input.changed(), *tolerance, *m, &mut anew[lent]);
                proved_answer(banded)
            }
        };
        assert!(
            proved == plain && plain == banded && by_proved == by_plain && by_plain == anew && *outline == before,
            "{}: the engines differ, or a number changed\n{input:?}\nlist {list:?}\nproved answers {proved:?}\n\
            plain answers {plain:?}\nbanding answers {banded:?}\nproved wrote {by_proved:?}\nplain wrote {by_plain:?}\n\
            banding wrote {anew:?}",
            self.name,
        );
        self.count(input, plain, anew.len());
        plain
    }

    /// Exchanges a curve of a banded outline in lists that are exactly long enough for the changed one, one number short,
    /// and longer. Returns the answer for the longer one.
    pub fn into_every_length(&mut self, input: &Exchange, records: &[i32], random: &mut Random) -> Answer {
        let longer = (256 + random.below(60)) * record_length(input.m);
        let mut list = records.to_vec();
        list.extend((0..longer).map(|_| random.bits() as i32));
        let answer = self.exchange(input, &list);
        let Accepted { leaves, .. } = answer else { return answer };
        let exact = leaves as usize * record_length(input.m);
        if exact >= records.len() {
            assert_eq!(self.exchange(input, &list[..exact]), answer);
        }
        if exact > records.len() {
            assert_eq!(self.exchange(input, &list[..exact - 1]), Refused(8, leaves));
            assert_eq!(self.exchange(input, records), Refused(8, leaves));
        } else {
            // The old records are all that the list has.
            assert_eq!(self.exchange(input, records), answer);
            let short = self.exchange(input, &records[..records.len() - 1]);
            assert_eq!(short, Refused(23, records.len() as u64 - 1));
        }
        answer
    }

    /// Prints what was compared, also where the test runner keeps a test's output to itself.
    pub fn report(&self) {
        let mut out = std::io::stdout().lock();
        writeln!(out, "{}: {}", self.name, self.tally).expect("standard output takes a line");
    }

    fn count(&mut self, input: &Exchange, answer: Answer, numbers: usize) {
        self.tally.answers += 1;
        self.tally.numbers += numbers as u64;
        match answer {
            Accepted { leaves, .. } => {
                self.tally.accepted[input.m as usize - 1] += 1;
                let old = input.outline[starts(&input.outline)[input.number]];
                self.tally.degrees[old as usize - 1][input.curve[0] as usize - 1] += 1;
                let before = (input.given / record_length(input.m)) as u64;
                self.tally.leaves[usize::from(leaves >= before) + usize::from(leaves > before)] += 1;
            }
            Refused(number, _) => self.tally.refused.count(number),
        }
    }
}

impl fmt::Display for Tally {
    fn fmt(&self, f: &mut fmt::Formatter<'_>) -> fmt::Result {
        write!(
            f,
            "{} answers and {} numbers compared; accepted by m {:?}, by degrees {:?}, with fewer leaves, as many and more \
            {:?}, refused by number {}",
            self.answers, self.numbers, self.accepted, self.degrees, self.leaves, self.refused
        )
    }
}
