//! Foretelling: how deep each curve of an outline can be halved, and so how many leaves and nodes there can be, from
//! second differences alone.

use crate::curve::{Curve, Values};
use crate::degree::deepest;
use crate::outline;
use crate::pieces::{check_pieces, for_pieces};
use crate::refusal::Refusal;
use crate::rows::Rows;

/// What is foretold of an outline. Both are 0 where a curve has no depth.
#[derive(Debug, Clone, Copy, PartialEq, Eq)]
pub struct Foretold {
    /// The sum of 2^j over the depths j of the curves.
    pub leaves: u64,
    /// The sum of 2^(j + 1) − 1.
    pub nodes: u64,
}

/// Writes the depths of an outline's curves, at a tolerance in sixteenths and with m pieces to a leaf, to the front of
/// `depths`: one number a curve, −1 where it has none. Numbers past them stay as they were, and so do all where the
/// answer is a refusal.
pub fn foretell(outline: &[i32], tolerance: i32, m: u32, depths: &mut [i32]) -> Result<Foretold, Refusal> {
    check_pieces(m)?;
    outline::check_tolerance(tolerance)?;
    let curves = outline::curves(outline, outline::MOST_CURVES, m)?;
    let room = depths.get_mut(..curves.len()).ok_or(Refusal::TooFewRecords { leaves: curves.len() })?;
    let gap = for_pieces!(m, gap);
    let mut foretold = Some(Foretold { leaves: 0, nodes: 0 });
    for (place, curve) in room.iter_mut().zip(&curves) {
        let depth = depth(curve, gap(curve.degree), tolerance);
        *place = depth.map_or(-1, |j| j as i32);
        foretold = foretold.zip(depth).map(|(sum, j)| Foretold {
            leaves: sum.leaves + (1 << j),
            nodes: sum.nodes + (1 << (j + 1)) - 1,
        });
    }
    Ok(foretold.unwrap_or(Foretold { leaves: 0, nodes: 0 }))
}

/// The least j up to the greatest depth that meets the premise of the depth claim, with a gap G and the curve's largest
/// second difference M: 2 × (16 × G × M + 20000 × 4^j)² ≤ (10000 × T × 4^j)².
fn depth(curve: &Curve, gap: i128, tolerance: i32) -> Option<u32> {
    let largest = largest(&curve.x, curve.degree).max(largest(&curve.y, curve.degree));
    let meets = |j: &u32| {
        let parts = 4_i128.pow(*j);
        let bends = 16 * gap * i128::from(largest) + 20_000 * parts;
        2 * bends.pow(2) <= (10_000 * i128::from(tolerance) * parts).pow(2)
    };
    (0..=deepest(curve.degree)).find(meets)
}

/// The largest second difference of one coordinate, in size; 0 for degree 1.
fn largest(values: &Values, degree: usize) -> i64 {
    values[..=degree].windows(3).map(|c| (c[0] - 2 * c[1] + c[2]).abs()).max().unwrap_or(0)
}

/// G of a degree with B − 1 pieces: the largest sum of high minus low over a break point's rows.
fn gap<const B: usize>(degree: usize) -> i128 {
    let at = |i: usize| Rows::<B>::of(degree).iter().map(|rows| i128::from(rows.high[i] - rows.low[i])).sum();
    (0..B).map(at).max().expect("there are break points")
}

#[cfg(test)]
mod tests {
    use super::*;
    use crate::degree::fewest_pieces;
    use crate::documented::by_pieces;

    const LINE: [i32; 5] = [1, 0, 0, 0, 1];

    /// Curve A of document 01: its largest second difference is 30.
    const A: [i32; 9] = [3, 0, 0, 10, 30, 20, 30, 30, 0];

    /// The answer, and what stands in a list of so many sevens afterwards.
    fn told(outline: &[i32], tolerance: i32, m: u32, lent: usize) -> (Result<Foretold, Refusal>, Vec<i32>) {
        let mut depths = vec![7; lent];
        (foretell(outline, tolerance, m, &mut depths), depths)
    }

    #[test]
    fn gaps_are_those_of_the_page() {
        for degree in 2..=5 {
            for m in fewest_pieces(degree)..=8 {
                assert_eq!(for_pieces!(m, gap)(degree), by_pieces(degree, "G", m as usize));
            }
        }
        assert!((1..=8).all(|m| for_pieces!(m, gap)(1) == 0));
    }

    #[test]
    fn depths_and_their_sums_stand_in_front_of_the_rest() {
        // 2 × (16 × 890 × 30 + 20000 × 4^j)² ≤ (440000 × 4^j)² holds at j 1 and not at 0; a line has depth 0.
        let outline = [&A[..], &[1, 30, 0, 0, 0]].concat();
        assert_eq!(told(&outline, 44, 3, 4), (Ok(Foretold { leaves: 3, nodes: 4 }), vec![1, 0, 7, 7]));
        assert_eq!(told(&outline, 44, 3, 2), (Ok(Foretold { leaves: 3, nodes: 4 }), vec![1, 0]));
        assert_eq!(told(&outline, 44, 3, 1), (Err(Refusal::TooFewRecords { leaves: 2 }), vec![7]));
    }

    #[test]
    fn a_line_has_a_depth_from_tolerance_3_on() {
        let none = Foretold { leaves: 0, nodes: 0 };
        for m in 1..=8 {
            assert_eq!(told(&LINE, 2, m, 1), (Ok(none), vec![-1]));
            assert_eq!(told(&LINE, 3, m, 1), (Ok(Foretold { leaves: 1, nodes: 1 }), vec![0]));
        }
        // Banding accepts it all the same.
        assert!(crate::band(&LINE, 2, 3, &mut [0; 18]).is_ok());
    }

    #[test]
    fn one_curve_without_a_depth_leaves_no_sum_and_the_others_are_written() {
        let steep = [2, 0, 1, 0, 1_048_576, 0, 1];
        let outline = [&LINE[..], &steep, &[1, 0, 1, 0, 0]].concat();
        assert_eq!(told(&outline, 3, 3, 3), (Ok(Foretold { leaves: 0, nodes: 0 }), vec![0, -1, 0]));
    }

    #[test]
    fn each_degree_has_its_greatest_depth() {
        // The largest second difference that there is, 4194304, at the least tolerance for the greatest depth.
        for (degree, m, tolerance, deepest) in [(3, 8, 21, 8), (4, 8, 8_864, 4), (5, 8, 14_795, 4)] {
            let points = (0..=degree).flat_map(|j| [0, if j % 2 == 0 { 1_048_576 } else { -1_048_576 }]);
            let outline: Vec<i32> = [degree].into_iter().chain(points).collect();
            let whole = Foretold { leaves: 1 << deepest, nodes: (2 << deepest) - 1 };
            assert_eq!(told(&outline, tolerance, m, 1), (Ok(whole), vec![deepest]));
            assert_eq!(told(&outline, tolerance - 1, m, 1), (Ok(Foretold { leaves: 0, nodes: 0 }), vec![-1]));
        }
    }

    #[test]
    fn checks_come_in_bandings_order_and_8_is_last() {
        let refusal = |outline: &[i32], tolerance, m| {
            let (answer, depths) = told(outline, tolerance, m, 0);
            assert!(depths.is_empty());
            answer.expect_err("it is refused")
        };
        assert_eq!(refusal(&[], 1, 9), Refusal::Pieces);
        assert_eq!(refusal(&[], 1, 3), Refusal::Tolerance);
        assert_eq!(refusal(&[], 2, 3), Refusal::EmptyOutline);
        assert_eq!(refusal(&[6], 2, 3), Refusal::Degree { index: 0 });
        assert_eq!(refusal(&[4], 2, 2), Refusal::TooFewPieces { index: 0 });
        assert_eq!(refusal(&[1, 0, 0], 2, 3), Refusal::CutShort { length: 3 });
        assert_eq!(refusal(&[1, 0, 0, 0, 1_048_577], 2, 3), Refusal::Coordinate { index: 4 });
        assert_eq!(refusal(&LINE.repeat(2), 2, 3), Refusal::Gap { index: 5 });
        assert_eq!(refusal(&[1, 0, 0, 0, 0].repeat(4_097), 2, 3), Refusal::TooManyCurves { index: 20_480 });
        assert_eq!(refusal(&[1, 0, 0, 0, 0].repeat(4_096), 2, 3), Refusal::TooFewRecords { leaves: 4_096 });
    }
}
