//! Exchanging one curve of an outline that is banded.

use crate::band::{report, Report};
use crate::library;
use crate::refusal::Refusal;

/// How many numbers a new curve has: a degree, and x and y of six points.
///
/// ```
/// let line: [i32; contour_band::CURVE_LENGTH] = [1, 0, 0, 30, -7, 0, 0, 0, 0, 0, 0, 0, 0];
/// assert_eq!(line[1..5], [0, 0, 30, -7]);
/// ```
pub const CURVE_LENGTH: usize = 13;

/// Puts another curve in the place of curve `number` of an outline whose records are there, and gives the records and the
/// report of the changed outline.
///
/// `outline`, `tolerance` and `m` are as in [`band`](crate::band). `curve` is the new curve as it stands in an outline,
/// its degree and then x and y of its points; numbers past its degree are not read. At the front of `records` stand
/// the records that [`band`](crate::band) wrote for the outline with this tolerance and `m`, `given` numbers of them,
/// which is [`record_length(m)`](crate::record_length) for each leaf.
///
/// Where it is accepted, the list and the report are those of [`band`](crate::band) for the changed outline, lent this
/// list: records of other curves keep their numbers and only move, and the numbers past the new records stay as they were.
/// So lend room for as many leaves as the changed outline may have.
///
/// ```
/// use contour_band::{band, exchange, leaves, record_length, Refusal};
///
/// // An arch and the line back to its start, with room for four leaves.
/// let outline = [3, 0, 0, 10, 30, 20, 30, 30, 0, 1, 30, 0, 0, 0];
/// let m = 3;
/// let mut records = [0; 4 * record_length(3)];
/// let leaves_before = band(&outline, 44, m, &mut records)?.leaves as usize;
/// assert_eq!(leaves_before, 2);
/// let given = leaves_before * record_length(m);
///
/// // A higher arch, which has two leaves; its last four numbers are not read.
/// let higher = [3, 0, 0, 10, 60, 20, 60, 30, 0, 9, 9, 9, 9];
/// let report = exchange(&outline, 44, m, 0, higher, given, &mut records)?;
/// assert_eq!((report.curves, report.leaves, report.nodes), (2, 3, 4));
/// let curves: Vec<i32> = leaves(&records[..3 * record_length(m)], m).map(|leaf| leaf.curve).collect();
/// assert_eq!(curves, [0, 0, 1]);
///
/// // The records are now those of the changed outline, and no longer those of the old one.
/// let refusal = exchange(&outline, 44, m, 0, higher, given, &mut records).unwrap_err();
/// assert_eq!(refusal, Refusal::OtherRecords { index: 1 });
/// assert_eq!(exchange(&outline, 44, m, 2, higher, given, &mut records), Err(Refusal::NoSuchCurve { number: 2 }));
/// # Ok::<(), Refusal>(())
/// ```
///
/// # Errors
///
/// A [`Refusal`], and `records` is then unaltered. First come those of [`band`](crate::band) for the outline, in its order,
/// without [`Refusal::TooFewRecords`]; then [`Refusal::NoSuchCurve`]; then [`Refusal::OtherRecords`], where the first
/// `given` numbers are not the outline's records, or are more than `records` has; then those of [`band`](crate::band) for
/// the changed outline, whose indexes are those in the changed list.
pub fn exchange(
    outline: &[i32],
    tolerance: i32,
    m: u32,
    number: usize,
    curve: [i32; CURVE_LENGTH],
    given: usize,
    records: &mut [i32],
) -> Result<Report, Refusal> {
    report(library::exchange(outline, tolerance, m, number, &curve, given, records))
}
