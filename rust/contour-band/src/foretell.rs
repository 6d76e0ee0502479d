//! Foretelling how many leaves an outline has at most.

use crate::library;
use crate::refusal::Refusal;

/// What is foretold of an outline all of whose curves have a depth.
///
/// ```
/// use contour_band::{foretell, Foretold};
///
/// // A line is one leaf.
/// let foretold = foretell(&[1, 0, 0, 0, 1], 3, 3, &mut [0])?;
/// assert_eq!(foretold, Some(Foretold { leaves: 1, nodes: 1 }));
/// # Ok::<(), contour_band::Refusal>(())
/// ```
#[derive(Debug, Clone, Copy, PartialEq, Eq, Hash)]
pub struct Foretold {
    /// The most leaves that banding can count: 2^j for each curve of depth j. So a list of so many times
    /// [`record_length(m)`](crate::record_length) numbers is long enough.
    pub leaves: usize,
    /// The most nodes that banding can count: 2^(j + 1) − 1 for each curve of depth j.
    pub nodes: usize,
}

/// Foretells, without halving a curve, how many leaves and nodes [`band`](crate::band) can count for an outline, at a
/// tolerance and with `m` pieces a leaf.
///
/// One number for each curve is written to the front of `depths`: the least depth j, up to the curve's greatest (8, or 4
/// where its degree is 4 or 5), that meets the premise of the depth claim, 2 × (16 × G × M + 20000 × 4^j)² ≤ (10000 × T
/// × 4^j)², or −1 where none does. No leaf of the curve is deeper. M is the curve's largest second difference, and
/// G goes by its degree and `m` (the repository's `docs/ROWS.md` has the table). The numbers past them stay as they were.
///
/// Where every curve has a depth, banding of the outline at this tolerance and `m` is refused neither with 7 nor, with
/// room for the foretold leaves, with 8. That room is also the fast way where degrees are 1 to 3: the leaves then need
/// not be counted before their records are written. Otherwise the answer is `None`, and nothing is foretold: banding may
/// still accept. It does so with small curves at a tolerance of 2, where no curve has a depth.
///
/// ```
/// use contour_band::{band, foretell, record_length, Foretold, Refusal};
///
/// let outline = [3, 0, 0, 10, 30, 20, 30, 30, 0];
/// let m = 3;
/// let mut depths = [0; 1];
/// let foretold = foretell(&outline, 43, m, &mut depths)?.expect("the curve has a depth");
/// assert_eq!((depths, foretold), ([1], Foretold { leaves: 2, nodes: 3 }));
/// let mut records = vec![0; foretold.leaves * record_length(m)];
/// assert!(band(&outline, 43, m, &mut records)?.leaves <= foretold.leaves);
///
/// // A line at a tolerance of 2 has no depth, although it is accepted.
/// let line = [1, 0, 0, 0, 1];
/// assert_eq!(foretell(&line, 2, m, &mut depths), Ok(None));
/// assert_eq!(depths, [-1]);
/// assert!(band(&line, 2, m, &mut records).is_ok());
///
/// assert_eq!(foretell(&outline, 43, m, &mut []), Err(Refusal::TooFewRecords { leaves: 1 }));
/// # Ok::<(), Refusal>(())
/// ```
///
/// # Errors
///
/// A [`Refusal`] of `m`, the tolerance or the outline, as in [`band`](crate::band) and in its order. Then
/// [`Refusal::TooFewRecords`] where `depths` has fewer numbers than the outline has curves, with their count.
/// `depths` is then unaltered.
pub fn foretell(
    outline: &[i32],
    tolerance: i32,
    m: u32,
    depths: &mut [i32],
) -> Result<Option<Foretold>, Refusal> {
    let answer = library::foretell(outline, tolerance, m, depths);
    if answer.refusal != 0 {
        return Err(Refusal::new(answer.refusal, answer.spot));
    }
    let foretold = Foretold { leaves: answer.leaves as usize, nodes: answer.nodes as usize };
    Ok((answer.leaves > 0).then_some(foretold))
}
