//! Banding an outline, in integers or in binary64, or a B-spline.

use crate::library;
use crate::refusal::Refusal;

/// What banding reports of an outline or a B-spline that it accepts.
///
/// ```
/// use contour_band::{Band, Report};
///
/// // An arch, and a line back to where it begins.
/// let outline = [3, 0, 0, 10, 30, 20, 30, 30, 0, 1, 30, 0, 0, 0];
/// assert_eq!(Band::new(&outline, 43, 3)?.report(), Report { curves: 2, leaves: 3, nodes: 4 });
/// # Ok::<(), contour_band::Refusal>(())
/// ```
#[derive(Debug, Clone, Copy, PartialEq, Eq, Hash)]
pub struct Report {
    /// The curves, 1 to 4,096.
    pub curves: usize,
    /// The leaves, each written as one record.
    pub leaves: usize,
    /// The nodes met, 2 × leaves − curves.
    pub nodes: usize,
}

impl Report {
    /// The report of these counts, as the library gives them.
    pub(crate) fn new(curves: u64, leaves: u64, nodes: u64) -> Report {
        Report { curves: curves as usize, leaves: leaves as usize, nodes: nodes as usize }
    }
}

/// Puts a band round an outline.
///
/// `outline` has for each curve its degree d (1 to 5), then x and y of its d + 1 control points
/// in stage units, each from −1,048,576 to 1,048,576. There are 1 to 4,096 curves, and each begins where
/// the one before it ends; the outline may stay open at its ends. `tolerance` is the greatest diagonal
/// of a box, 2 to 1,048,576 sixteenths of a unit. `m` is how many straight pieces a leaf has, 1 to 8, and
/// 3 to 8 where a curve has degree 4 or 5: the more, the fewer leaves there are as a rule, and the longer is
/// a record.
///
/// The leaves are written to the front of `records`, [`record_length(m)`](crate::record_length) numbers
/// each, by curve and then by parameter; [`leaves`](crate::leaves) reads them. The numbers past them stay
/// as they were. A curve is halved 8 times at most, and 4 times where its degree is 4 or 5, so a list of
/// `record_length(m)` × 256 numbers for each curve, or × 16 for one of degree 4 or 5, is always long enough.
///
/// ```
/// use contour_band::{band, leaves, record_length, Refusal};
///
/// let outline = [3, 0, 0, 10, 30, 20, 30, 30, 0];
/// let m = 3;
/// // An empty list asks how many leaves there are, and then there is a list for just so many.
/// assert_eq!(band(&outline, 43, m, &mut []), Err(Refusal::TooFewRecords { leaves: 2 }));
/// let mut records = vec![0; 2 * record_length(m)];
/// let report = band(&outline, 43, m, &mut records)?;
/// assert_eq!((report.curves, report.leaves, report.nodes), (1, 2, 3));
/// let nodes: Vec<i32> = leaves(&records, m).map(|leaf| leaf.node).collect();
/// assert_eq!(nodes, [2, 3]);
///
/// // With eight pieces the boxes are narrower, and the whole curve is one leaf down to a tolerance of 7.
/// let mut records = vec![0; record_length(8)];
/// assert_eq!(band(&outline, 7, 8, &mut records)?.leaves, 1);
///
/// let refusal = band(&[6, 0, 0], 43, m, &mut records).unwrap_err();
/// assert_eq!(refusal, Refusal::Degree { index: 0 });
/// assert_eq!((refusal.number(), refusal.spot()), (2, 0));
/// assert_eq!(band(&outline, 43, 9, &mut records), Err(Refusal::Pieces));
/// # Ok::<(), Refusal>(())
/// ```
///
/// # Errors
///
/// A [`Refusal`] where `m`, the tolerance or the outline breaks a bound, a stretch is too wide after
/// the last halving, or `records` is too short. The first that falls is
/// answered, and `records` is then unaltered. An empty list therefore asks how many leaves there are: the answer
/// is [`Refusal::TooFewRecords`] for any outline that is otherwise accepted.
pub fn band(outline: &[i32], tolerance: i32, m: u32, records: &mut [i32]) -> Result<Report, Refusal> {
    report(library::band(outline, tolerance, m, records))
}

/// How many curves the bench station takes.
///
/// ```
/// use contour_band::{station_band, STATION_CURVES};
///
/// let lines = [1, 0, 0, 0, 0].repeat(STATION_CURVES);
/// let mut records = vec![0; 18 * STATION_CURVES];
/// assert!(station_band(&lines, 100, 3, &mut records).is_ok());
/// ```
pub const STATION_CURVES: usize = 64;

/// How many leaves the bench station takes. So a list of `STATION_LEAVES` × `record_length(m)` numbers is
/// always long enough for [`station_band`].
///
/// ```
/// use contour_band::{record_length, STATION_LEAVES};
///
/// assert_eq!(STATION_LEAVES * record_length(3), 2_304);
/// ```
pub const STATION_LEAVES: usize = 128;

/// Puts a band round an outline for the bench station, which has little memory: it takes
/// [`STATION_CURVES`] curves and [`STATION_LEAVES`] leaves. What it accepts, [`band`] accepts with the same
/// report and the same records; and what [`band`] accepts with no more curves and leaves than these, it
/// accepts. A call takes at most 6 KiB of stack, whatever it is given. All else is as in [`band`].
///
/// ```
/// use contour_band::{band, record_length, station_band, Refusal, STATION_LEAVES};
///
/// const M: u32 = 3;
/// let mut records = [0; STATION_LEAVES * record_length(M)];
///
/// // A bow that ends where it begins and has four leaves.
/// let bow = [2, 0, 0, 0, 800, 0, 0];
/// let report = station_band(&bow.repeat(32), 100, M, &mut records)?;
/// assert_eq!((report.curves, report.leaves), (32, 128));
/// assert_eq!(
///     station_band(&bow.repeat(33), 100, M, &mut records),
///     Err(Refusal::TooManyLeaves { leaves: 132 })
/// );
/// let lines = [1, 0, 0, 0, 0].repeat(65);
/// assert_eq!(station_band(&lines, 100, M, &mut records), Err(Refusal::TooManyCurves { index: 320 }));
/// # Ok::<(), Refusal>(())
/// ```
///
/// # Errors
///
/// A [`Refusal`], as in [`band`], where the first curve too many is the 65th. [`Refusal::TooManyLeaves`] comes
/// after a stretch that is too wide and before a list that is too short; it has the number of all leaves.
pub fn station_band(outline: &[i32], tolerance: i32, m: u32, records: &mut [i32]) -> Result<Report, Refusal> {
    report(library::station_band(outline, tolerance, m, records))
}

/// Puts a band round a uniform cubic B-spline.
///
/// `points` has x and y of each of its n points in stage units, each from −131,072 to 131,072; n is 4 to 4,099.
/// Four neighbours b0 to b3 make one cubic curve, with control points (b0 + 4 b1 + b2)/6, (2 b1 + b2)/3,
/// (b1 + 2 b2)/3 and (b1 + 4 b2 + b3)/6: n − 3 curves, each of which begins where the one before it ends. Sixths are
/// carried exactly, and only the bounds of a box are rounded. With the first three points again at its end a spline
/// is closed. `tolerance`, `m`, `records`, the report and the records are as in [`band`], and [`judge`](crate::judge)
/// takes the records.
///
/// ```
/// use contour_band::{judge, leaves, record_length, spline_band, Judgement, Refusal};
///
/// const M: u32 = 3;
/// // One curve, with control points (10 25), (40/3 30), (50/3 30) and (20 25).
/// let points = [0, 0, 10, 30, 20, 30, 30, 0];
/// let mut records = [0; record_length(M)];
/// let report = spline_band(&points, 9, M, &mut records)?;
/// assert_eq!((report.curves, report.leaves, report.nodes), (1, 1, 1));
///
/// // Break point 1 lies at x 40/3 of a unit, which is 213.3 sixteenths.
/// let leaf = leaves(&records, M).next().unwrap();
/// assert_eq!((leaf.boxes[1].x.low, leaf.boxes[1].x.high), (213, 214));
///
/// // The middle of the curve, (15 28.75).
/// assert_eq!(judge(&records, M, 240, 460), Ok(Judgement::On { leaf: 0, cover: 1 }));
/// assert_eq!(judge(&records, M, 240, 462), Ok(Judgement::Off));
///
/// assert_eq!(spline_band(&points[..6], 9, M, &mut records), Err(Refusal::SplineLength { length: 6 }));
/// # Ok::<(), Refusal>(())
/// ```
///
/// # Errors
///
/// A [`Refusal`], of which the first in this order: `m` or the tolerance is outside its range, there are not 8 to
/// 8,198 numbers or not an even count of them, a coordinate is outside its range, a stretch is too wide after the
/// last halving, or `records` is too short. `records` is then unaltered.
pub fn spline_band(points: &[i32], tolerance: i32, m: u32, records: &mut [i32]) -> Result<Report, Refusal> {
    report(library::spline_band(points, tolerance, m, records))
}

/// Puts a band round an outline whose numbers are all in binary64, its degrees too.
///
/// A coordinate is read where it is a whole number from −1,048,576 to 1,048,576, and −0.0 reads as 0. What is answered
/// and written is what [`band`] answers and writes for the whole numbers read: records are in whole sixteenths, and
/// [`judge`](crate::judge) takes them. `tolerance`, `m` and `records` are as in [`band`]. The list is not copied.
///
/// ```
/// use contour_band::{band, binary64_band, record_length, Refusal};
///
/// const M: u32 = 3;
/// let mut records = [0; record_length(M)];
/// let report = binary64_band(&[3.0, 0.0, -0.0, 10.0, 30.0, 20.0, 30.0, 30.0, 0.0], 44, M, &mut records)?;
/// assert_eq!((report.curves, report.leaves, report.nodes), (1, 1, 1));
///
/// let mut same = [0; record_length(M)];
/// assert_eq!(band(&[3, 0, 0, 10, 30, 20, 30, 30, 0], 44, M, &mut same)?, report);
/// assert_eq!(records, same);
///
/// // The first faulty coordinate decides: it is no whole number, or it is one out of range.
/// let mut refused = |x, y| binary64_band(&[1.0, 0.0, 0.0, x, y], 44, M, &mut records).unwrap_err();
/// assert_eq!(refused(2_000_000.5, 1e300), Refusal::NotWhole { index: 3 });
/// assert_eq!(refused(1e300, 2_000_000.5), Refusal::Coordinate { index: 3 });
/// assert_eq!(refused(0.0, f64::NAN), Refusal::NotWhole { index: 4 });
/// // A degree that is not exactly 1 to 5 is no degree.
/// assert_eq!(binary64_band(&[2.5], 44, M, &mut records), Err(Refusal::Degree { index: 0 }));
/// # Ok::<(), Refusal>(())
/// ```
///
/// # Errors
///
/// A [`Refusal`], as in [`band`]. [`Refusal::NotWhole`] stands in the place of [`Refusal::Coordinate`]: of each
/// coordinate it is tried before the range.
pub fn binary64_band(
    outline: &[f64],
    tolerance: i32,
    m: u32,
    records: &mut [i32],
) -> Result<Report, Refusal> {
    report(library::binary64_band(outline, tolerance, m, records))
}

/// An answer in numbers as a report or a refusal.
pub(crate) fn report(answer: library::Answer) -> Result<Report, Refusal> {
    if answer.refusal != 0 {
        return Err(Refusal::new(answer.refusal, answer.spot));
    }
    Ok(Report::new(answer.curves, answer.leaves, answer.nodes))
}
