//! The tightest band that fits: the least tolerance at which an outline has no more leaves than a caller takes.

use crate::band::leaves;
use crate::outline::{self, TOLERANCES};
use crate::pieces::{check_pieces, for_pieces};
use crate::refusal::Refusal;

/// The least tolerance at which no node is too wide and there are at most `most` leaves of m pieces, if there is one. Every
/// tolerance is tried, from the least on.
pub fn tightest_by_trial(outline: &[i32], m: u32, most: usize) -> Result<Option<i32>, Refusal> {
    let fits = fitting(outline, m, most)?;
    Ok(TOLERANCES.into_iter().find(|&tolerance| fits(tolerance)))
}

/// The same by halving: a box that is no longer than one tolerance is no longer than every larger one, so what fits at one
/// fits at all above it.
pub fn tightest(outline: &[i32], m: u32, most: usize) -> Result<Option<i32>, Refusal> {
    let fits = fitting(outline, m, most)?;
    let (mut low, mut high) = (*TOLERANCES.start(), *TOLERANCES.end() + 1);
    while low < high {
        let middle = low + (high - low) / 2;
        if fits(middle) {
            high = middle;
        } else {
            low = middle + 1;
        }
    }
    Ok(TOLERANCES.contains(&low).then_some(low))
}

/// Whether a tolerance fits an outline, after the checks of m and of the outline.
fn fitting(outline: &[i32], m: u32, most: usize) -> Result<impl Fn(i32) -> bool, Refusal> {
    check_pieces(m)?;
    let curves = outline::curves(outline, outline::MOST_CURVES, m)?;
    let leaves = for_pieces!(m, leaves);
    Ok(move |tolerance| leaves(&curves, tolerance).is_ok_and(|leaves| leaves <= most))
}

#[cfg(test)]
mod tests {
    use super::*;

    const LINE: [i32; 5] = [1, 0, 0, 0, 1];

    /// Curve A of document 01, and its chord.
    const BOW: [i32; 14] = [3, 0, 0, 10, 30, 20, 30, 30, 0, 1, 30, 0, 0, 0];

    #[test]
    fn trial_and_halving_find_the_same() {
        for m in 1..=8 {
            for most in 0..12 {
                for outline in [&LINE[..], &BOW[..9], &BOW] {
                    let found = tightest(outline, m, most);
                    assert!(found.is_ok());
                    // Where none fits, a million tolerances are tried.
                    if most >= outline.len() / 7 {
                        assert_eq!(found, tightest_by_trial(outline, m, most));
                    }
                }
            }
        }
        assert_eq!(tightest_by_trial(&LINE, 3, 0), Ok(None));
    }

    #[test]
    fn curve_a_is_one_leaf_from_44_on() {
        assert_eq!(tightest(&BOW[..9], 3, 0), Ok(None));
        assert_eq!(tightest(&BOW[..9], 3, 1), Ok(Some(44)));
        assert_eq!(tightest(&BOW, 3, 1), Ok(None));
        assert_eq!(tightest(&BOW, 3, 2), Ok(Some(44)));
        assert_eq!(tightest(&LINE, 3, 1), Ok(Some(2)));
        assert_eq!(tightest(&LINE, 3, usize::MAX), Ok(Some(2)));
    }

    #[test]
    fn the_largest_tolerance_is_the_last_that_is_tried() {
        // At m 1 a box is 16 × G × M / 10000 high at depth 0, before it is rounded: 12 × M at degree 3.
        let high = |d: i32| [3, 0, 0, 0, d, 0, d, 0, 0];
        let (mut d, mut last) = (80_000, None);
        while let Some(tolerance) = tightest(&high(d), 1, 1).expect("it is accepted") {
            assert!(last < Some(tolerance));
            (d, last) = (d + 1, Some(tolerance));
        }
        assert!(last > Some(1_048_560), "{last:?}");
        assert_eq!(tightest(&high(d), 1, 2).map(|found| found.is_some()), Ok(true));
    }

    #[test]
    fn checks_come_in_bandings_order() {
        let refusal = |outline: &[i32], m| {
            let refusal = tightest(outline, m, 1).expect_err("it is refused");
            assert_eq!(tightest_by_trial(outline, m, 1), Err(refusal));
            refusal
        };
        assert_eq!(refusal(&[], 9), Refusal::Pieces);
        assert_eq!(refusal(&[], 3), Refusal::EmptyOutline);
        assert_eq!(refusal(&[6], 3), Refusal::Degree { index: 0 });
        assert_eq!(refusal(&[4], 2), Refusal::TooFewPieces { index: 0 });
        assert_eq!(refusal(&[1, 0, 0], 3), Refusal::CutShort { length: 3 });
        assert_eq!(refusal(&[1, 0, 0, 0, 1_048_577], 3), Refusal::Coordinate { index: 4 });
        assert_eq!(refusal(&LINE.repeat(2), 3), Refusal::Gap { index: 5 });
        assert_eq!(refusal(&[1, 0, 0, 0, 0].repeat(4_097), 3), Refusal::TooManyCurves { index: 20_480 });
    }
}
