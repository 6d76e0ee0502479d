//! The tightest band that fits.

use crate::library;
use crate::refusal::Refusal;

/// The least tolerance, from 2 to 1,048,576 sixteenths of a stage unit, at which [`band`](crate::band) of an outline with
/// `m` pieces a leaf is not refused with 7 and has at most so many leaves, or `None` where every tolerance of that span
/// fails.
///
/// With so many times [`record_length(m)`](crate::record_length) numbers lent, banding accepts at this tolerance and at
/// every larger one, with no more leaves, and at none below. At 1,048,576 no outline is refused with 7, so `None` says that
/// it has more leaves there, and at every smaller tolerance.
///
/// The span is halved twenty times, and each half costs a walk of the outline's curves.
///
/// ```
/// use contour_band::{band, record_length, tightest, Refusal};
///
/// let outline = [3, 0, 0, 10, 30, 20, 30, 30, 0];
/// let m = 3;
/// let tolerance = tightest(&outline, m, 1)?.expect("one leaf is enough");
/// assert_eq!(tolerance, 44);
/// let mut records = [0; record_length(3)];
/// assert_eq!(band(&outline, tolerance, m, &mut records)?.leaves, 1);
/// assert_eq!(band(&outline, tolerance - 1, m, &mut records), Err(Refusal::TooFewRecords { leaves: 2 }));
///
/// // A curve has a leaf at every tolerance.
/// assert_eq!(tightest(&outline, m, 0), Ok(None));
/// // A line has one at a tolerance of 2.
/// assert_eq!(tightest(&[1, 0, 0, 7, 7], m, 1), Ok(Some(2)));
/// # Ok::<(), Refusal>(())
/// ```
///
/// # Errors
///
/// A [`Refusal`] of `m` or the outline, as in [`band`](crate::band) and in its order.
pub fn tightest(outline: &[i32], m: u32, leaves: usize) -> Result<Option<i32>, Refusal> {
    let answer = library::tightest(outline, m, leaves);
    if answer.refusal != 0 {
        return Err(Refusal::new(answer.refusal, answer.spot));
    }
    // A tolerance is at most 2^20.
    Ok((answer.tolerance > 0).then_some(answer.tolerance as i32))
}
