//! Judging points against leaf records.

use crate::band::Report;
use crate::library;
use crate::refusal::Refusal;

/// The largest number of a box and of a point, in sixteenths of a stage unit. Its negative is the
/// least.
///
/// ```
/// use contour_band::{Band, Refusal, FARTHEST};
///
/// let line = Band::new(&[1, 0, 0, 0, 1], 2, 3)?;
/// assert!(!line.judge(FARTHEST, -FARTHEST)?.is_on());
/// assert_eq!(line.judge(0, FARTHEST + 1), Err(Refusal::PointY));
/// # Ok::<(), Refusal>(())
/// ```
pub const FARTHEST: i32 = 536_870_912;

/// What judging says of a point.
///
/// ```
/// use contour_band::{Band, Judgement};
///
/// let arch = Band::new(&[3, 0, 0, 10, 30, 20, 30, 30, 0], 44, 3)?;
/// assert_eq!(arch.judge(240, 363)?, Judgement::On { leaf: 0, cover: 1 });
/// assert_eq!(arch.judge(240, 364)?, Judgement::Off);
/// # Ok::<(), contour_band::Refusal>(())
/// ```
#[derive(Debug, Clone, Copy, PartialEq, Eq, Hash)]
pub enum Judgement {
    /// The point is on the band: a cover holds it, edges included.
    On {
        /// The number of the first record of the list that holds it, from 0.
        leaf: usize,
        /// The lowest cover of that record that holds it, 0 to m − 1.
        cover: usize,
    },
    /// No cover of any record holds the point.
    Off,
}

impl Judgement {
    /// Whether the point is on the band.
    ///
    /// ```
    /// use contour_band::Judgement;
    ///
    /// assert!(Judgement::On { leaf: 0, cover: 1 }.is_on());
    /// assert!(!Judgement::Off.is_on());
    /// ```
    pub fn is_on(self) -> bool {
        matches!(self, Judgement::On { .. })
    }

    fn new(on: u32, leaf: u64, cover: u64) -> Judgement {
        if on == 0 {
            Judgement::Off
        } else {
            Judgement::On { leaf: leaf as usize, cover: cover as usize }
        }
    }
}

/// Judges a point, in sixteenths of a stage unit, against a list of leaf records of `m` pieces, 1 to 8.
///
/// A record has covers 0 to m − 1. Cover i is every point that lies, for some fraction s from 0 to
/// 1, in the box (1 − s) × box i + s × box i + 1. A point is on where some cover of some record
/// holds it. The first record of the list that does is named, and in it the lowest cover.
///
/// `leaves` is any list of records that passes the checks, in any order. To judge against a band,
/// give it the records that [`band`](crate::band) wrote, without the rest of the lent list, and the same
/// `m`. Then every point of the outline's curves is on, and every point that is on lies within the
/// tolerance of one of them.
///
/// ```
/// use contour_band::{band, judge, record_length, Judgement, Refusal};
///
/// // A line from (0 0) to (0 1), in a list with room for more.
/// let m = 3;
/// let mut records = vec![0; 10 * record_length(m)];
/// let report = band(&[1, 0, 0, 0, 1], 2, m, &mut records)?;
/// let leaves = &records[..record_length(m) * report.leaves];
///
/// assert_eq!(judge(leaves, m, 0, 3), Ok(Judgement::On { leaf: 0, cover: 0 }));
/// assert_eq!(judge(leaves, m, 0, 17), Ok(Judgement::Off));
/// // The rest of the list has no records: its nodes are 0.
/// assert_eq!(judge(&records, m, 0, 3), Err(Refusal::LeafListNumber { index: 19 }));
/// # Ok::<(), Refusal>(())
/// ```
///
/// # Errors
///
/// [`Refusal::Pieces`], [`Refusal::LeafListLength`], [`Refusal::LeafListNumber`], [`Refusal::PointX`] and
/// [`Refusal::PointY`], the first in this order.
pub fn judge(leaves: &[i32], m: u32, x: i32, y: i32) -> Result<Judgement, Refusal> {
    let answer = library::judge(leaves, m, x, y);
    if answer.refusal != 0 {
        return Err(Refusal::new(answer.refusal, answer.spot));
    }
    Ok(Judgement::new(answer.on, answer.leaf, answer.cover))
}

/// Judges points, x and y of each one after the other, against one list of leaf records of `m` pieces. The list is
/// checked once, so with many points this is far faster than a call of [`judge`] for each.
///
/// Returns what judging says of each point, in their order; a point that is refused does not end it. Each answer is
/// three numbers, which stand at the front of `answers` afterwards: 1, record and cover where the point is on; 0, 0, 0
/// where it is off; 11, spot, 0 where it is refused. What stood behind them stays. A call takes 34 KiB of stack.
///
/// ```
/// use contour_band::{band, judge_points, Judgement, Refusal};
///
/// let mut records = [0; 18];
/// band(&[3, 0, 0, 10, 30, 20, 30, 30, 0], 44, 3, &mut records)?;
///
/// let points = [[240, 363], [240, 364], [0, i32::MAX]];
/// let mut answers = [-1; 10];
/// let judgements = judge_points(&records, 3, &points.concat(), &mut answers)?;
/// assert_eq!(
///     judgements.collect::<Vec<_>>(),
///     [Ok(Judgement::On { leaf: 0, cover: 1 }), Ok(Judgement::Off), Err(Refusal::PointY)]
/// );
/// assert_eq!(answers, [1, 0, 1, 0, 0, 0, 11, 1, 0, -1]);
/// # Ok::<(), Refusal>(())
/// ```
///
/// # Errors
///
/// [`Refusal::Pieces`], [`Refusal::LeafListLength`], [`Refusal::LeafListNumber`], [`Refusal::OddPoints`] and, with fewer
/// than three numbers for each point in `answers`, [`Refusal::TooFewRecords`], the first in this order. Each leaves
/// `answers` unaltered.
pub fn judge_points<'a>(
    leaves: &[i32],
    m: u32,
    points: &[i32],
    answers: &'a mut [i64],
) -> Result<impl ExactSizeIterator<Item = Result<Judgement, Refusal>> + 'a, Refusal> {
    let answer = library::judge_points(leaves, m, points, answers);
    if answer.refusal != 0 {
        return Err(Refusal::new(answer.refusal, answer.spot));
    }
    let written = &answers[..3 * answer.points as usize];
    Ok(written.chunks_exact(3).map(|three| match three[0] {
        0 => Ok(Judgement::Off),
        1 => Ok(Judgement::On { leaf: three[1] as usize, cover: three[2] as usize }),
        number => Err(Refusal::new(number as u32, three[1] as u64)),
    }))
}

/// What banding an outline and judging a point come to, where nothing is refused.
///
/// ```
/// use contour_band::{band_and_judge, Judgement, Outcome, Report};
///
/// let outcome = band_and_judge(&[1, 0, 0, 0, 1], 2, 3, &mut [0; 18], 0, 17)?;
/// let report = Report { curves: 1, leaves: 1, nodes: 1 };
/// assert_eq!(outcome, Outcome { report, judgement: Judgement::Off });
/// # Ok::<(), contour_band::Refusal>(())
/// ```
#[derive(Debug, Clone, Copy, PartialEq, Eq, Hash)]
pub struct Outcome {
    /// What banding reports.
    pub report: Report,
    /// What judging says of the point.
    pub judgement: Judgement,
}

/// Puts a band round an outline as [`band`](crate::band) does, and judges a point against the
/// records written, as [`judge`] does.
///
/// ```
/// use contour_band::{band_and_judge, Judgement, Refusal};
///
/// let outline = [3, 0, 0, 10, 30, 20, 30, 30, 0];
/// let mut records = [0; 100];
/// let outcome = band_and_judge(&outline, 44, 3, &mut records, 240, 363)?;
/// assert_eq!(outcome.report.leaves, 1);
/// assert_eq!(outcome.judgement, Judgement::On { leaf: 0, cover: 1 });
///
/// // A point out of range is refused as well, and leaves the list as it was.
/// let mut records = [0; 100];
/// assert_eq!(band_and_judge(&outline, 44, 3, &mut records, i32::MAX, 0), Err(Refusal::PointX));
/// assert_eq!(records, [0; 100]);
/// # Ok::<(), Refusal>(())
/// ```
///
/// # Errors
///
/// The refusals of [`band`](crate::band), then [`Refusal::PointX`] and [`Refusal::PointY`], the first in
/// this order. Each leaves `records` unaltered.
pub fn band_and_judge(
    outline: &[i32],
    tolerance: i32,
    m: u32,
    records: &mut [i32],
    x: i32,
    y: i32,
) -> Result<Outcome, Refusal> {
    let outcome = library::band_and_judge(outline, tolerance, m, records, x, y);
    if outcome.refusal != 0 {
        return Err(Refusal::new(outcome.refusal, outcome.spot));
    }
    let report = Report::new(outcome.curves, outcome.leaves, outcome.nodes);
    Ok(Outcome { report, judgement: Judgement::new(outcome.on, outcome.leaf, outcome.cover) })
}
