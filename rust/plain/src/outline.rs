//! The checks of a tolerance and an outline, and the outline's curves.

use crate::curve::Curve;
use crate::degree::check_degree;
use crate::refusal::Refusal;
use std::ops::RangeInclusive;

/// Tolerances that are taken, in sixteenths of a stage unit.
pub const TOLERANCES: RangeInclusive<i32> = 2..=1_048_576;

/// Coordinates that are taken, in stage units.
pub const COORDINATES: RangeInclusive<i32> = -1_048_576..=1_048_576;

/// How many curves an outline that is given as a list may have.
pub const MOST_CURVES: usize = 4_096;

/// Check 1.
pub fn check_tolerance(tolerance: i32) -> Result<(), Refusal> {
    if TOLERANCES.contains(&tolerance) {
        Ok(())
    } else {
        Err(Refusal::Tolerance)
    }
}

/// The curves of an outline that may have `most`, for m pieces, after checks 6 and, curve by curve, 5, 2, 20, 3, 4
/// and 17.
pub fn curves(outline: &[i32], most: usize, m: u32) -> Result<Vec<Curve>, Refusal> {
    if outline.is_empty() {
        return Err(Refusal::EmptyOutline);
    }
    let mut curves = Vec::new();
    let mut end: Option<&[i32]> = None;
    let mut index = 0;
    while index < outline.len() {
        if curves.len() == most {
            return Err(Refusal::TooManyCurves { index });
        }
        let degree = check_degree(outline[index], m, index)?;
        let first = index + 1;
        let next = first + 2 * (degree + 1);
        let length = outline.len();
        let points = outline.get(first..next).ok_or(Refusal::CutShort { length })?;
        if let Some(bad) = points.iter().position(|c| !COORDINATES.contains(c)) {
            return Err(Refusal::Coordinate { index: first + bad });
        }
        if end.is_some_and(|end| end != &points[..2]) {
            return Err(Refusal::Gap { index });
        }
        end = Some(&points[2 * degree..]);
        curves.push(Curve::new(degree, points));
        index = next;
    }
    Ok(curves)
}

#[cfg(test)]
mod tests {
    use super::*;

    const LINE: [i32; 5] = [1, 0, 0, 0, 1];

    /// A line of no length, which meets itself.
    const STILL: [i32; 5] = [1, 0, 1, 0, 1];

    /// How many curves an outline of a list has with three pieces, which every degree takes.
    fn count(outline: &[i32]) -> Result<usize, Refusal> {
        curves(outline, MOST_CURVES, 3).map(|curves| curves.len())
    }

    fn refusal(outline: &[i32]) -> Refusal {
        count(outline).expect_err("the outline is faulty")
    }

    #[test]
    fn the_last_tolerances_of_the_range_are_taken() {
        for tolerance in [i32::MIN, -2, 0, 1, 1_048_577, i32::MAX] {
            assert_eq!(check_tolerance(tolerance), Err(Refusal::Tolerance));
        }
        for tolerance in [2, 3, 1_048_575, 1_048_576] {
            assert_eq!(check_tolerance(tolerance), Ok(()));
        }
    }

    #[test]
    fn a_degree_is_1_to_5() {
        for bad in [i32::MIN, -1, 0, 6, i32::MAX] {
            assert_eq!(refusal(&[bad]), Refusal::Degree { index: 0 });
            let mut outline = LINE.to_vec();
            outline.push(bad);
            assert_eq!(refusal(&outline), Refusal::Degree { index: 5 });
        }
        for degree in 1..=5 {
            let mut outline = vec![0; 3 + 2 * degree];
            outline[0] = degree as i32;
            assert_eq!(count(&outline), Ok(1));
        }
    }

    #[test]
    fn a_curve_that_is_cut_short_is_named_before_its_coordinates() {
        assert_eq!(refusal(&[3, 1_048_577, 0]), Refusal::CutShort { length: 3 });
        assert_eq!(refusal(&[1]), Refusal::CutShort { length: 1 });
        assert_eq!(refusal(&[2, 0, 0, 0, 0, 0]), Refusal::CutShort { length: 6 });
    }

    #[test]
    fn an_earlier_curve_is_named_before_a_later_one() {
        let bad_coordinate_first = [1, 1_048_577, 0, 0, 0, 7];
        assert_eq!(refusal(&bad_coordinate_first), Refusal::Coordinate { index: 1 });
        let bad_degree_first = [7, 1, 1_048_577, 0, 0, 0];
        assert_eq!(refusal(&bad_degree_first), Refusal::Degree { index: 0 });
    }

    #[test]
    fn the_first_coordinate_out_of_range_is_named() {
        for bad in [i32::MIN, -1_048_577, 1_048_577, i32::MAX] {
            for at in 1..LINE.len() {
                let mut outline = LINE;
                outline[at..].fill(bad);
                assert_eq!(refusal(&outline), Refusal::Coordinate { index: at });
            }
        }
        for good in [-1_048_576, 1_048_576] {
            assert_eq!(count(&[1, good, good, good, good]), Ok(1));
        }
    }

    #[test]
    fn a_curve_too_many_is_named_before_anything_of_it_is_read() {
        for most in [1, 2, 64, MOST_CURVES] {
            let mut outline = STILL.repeat(most);
            let index = outline.len();
            let refusal = |outline: &[i32]| curves(outline, most, 3).expect_err("the outline is faulty");
            assert_eq!(curves(&outline, most, 3).map(|curves| curves.len()), Ok(most));
            outline.push(9);
            assert_eq!(refusal(&outline), Refusal::TooManyCurves { index });
            outline.extend([5, 5, 5, 5]);
            outline[index] = 1;
            assert_eq!(refusal(&outline), Refusal::TooManyCurves { index });
            outline[index - 4] = i32::MIN;
            assert_eq!(refusal(&outline), Refusal::Coordinate { index: index - 4 });
        }
    }

    #[test]
    fn lists_have_up_to_4096_curves() {
        for curves in [64, 65, 4_095, 4_096] {
            assert_eq!(count(&STILL.repeat(curves)), Ok(curves));
        }
        assert_eq!(refusal(&STILL.repeat(4_097)), Refusal::TooManyCurves { index: 20_480 });
    }

    /// A curve of each degree from a point to another, through points that are neither.
    fn curve(degree: i32, from: [i32; 2], to: [i32; 2]) -> Vec<i32> {
        let mut curve = vec![degree, from[0], from[1]];
        curve.extend((1..degree).flat_map(|i| [70 + i, 80 + i]));
        curve.extend(to);
        curve
    }

    #[test]
    fn a_curve_begins_at_the_last_point_of_the_curve_before() {
        for (first, second) in (1..=5).flat_map(|first| (1..=5).map(move |second| (first, second))) {
            let index = 3 + 2 * first as usize;
            let after = |start| count(&[curve(first, [3, 4], [5, 6]), curve(second, start, [8, 9])].concat());
            assert_eq!(after([5, 6]), Ok(2));
            // Off by one, the first point of the curve before, points before the last, the padding.
            let inner = (1..first).map(|i| [70 + i, 80 + i]);
            let others = [[4, 6], [6, 6], [5, 5], [5, 7], [3, 4], [0, 0], [6, 5]];
            for start in others.into_iter().chain(inner) {
                assert_eq!(after(start), Err(Refusal::Gap { index }));
            }
        }
    }

    #[test]
    fn an_outline_may_stay_open_and_have_curves_of_no_length() {
        assert_eq!(count(&curve(3, [3, 4], [5, 6])), Ok(1));
        let still = [LINE, STILL, STILL].concat();
        assert_eq!(count(&still), Ok(3));
    }

    #[test]
    fn a_gap_is_named_after_the_coordinates_of_its_curve_and_before_the_next_curve() {
        let far = 1_048_577;
        assert_eq!(refusal(&[1, 0, 0, far, 0, 1, 5, 5, 5, 5]), Refusal::Coordinate { index: 3 });
        assert_eq!(refusal(&[1, 0, 0, 0, 1, 1, 5, 5, 5, far]), Refusal::Coordinate { index: 9 });
        assert_eq!(refusal(&[1, 0, 0, 0, 1, 1, 5, 5, 5, 5, 7]), Refusal::Gap { index: 5 });
        assert_eq!(refusal(&[1, 0, 0, 0, 1, 1, 5, 5, 5]), Refusal::CutShort { length: 9 });
    }

    #[test]
    fn degrees_4_and_5_with_fewer_than_3_pieces_are_refused_after_5_and_2_and_before_3() {
        for (m, degree) in (1..=8).flat_map(|m| [(m, 4), (m, 5)]) {
            let refusal =
                |outline: &[i32]| curves(outline, MOST_CURVES, m).expect_err("the outline is faulty");
            // The curve is cut short as well, has a coordinate out of range, or does not meet the one before.
            let faulty = [
                (vec![degree], Refusal::CutShort { length: 1 }),
                (vec![degree, 1_048_577, 0], Refusal::CutShort { length: 3 }),
                ([&[degree, i32::MIN][..], &[0; 11]].concat(), Refusal::Coordinate { index: 1 }),
            ];
            for (outline, later) in faulty {
                assert_eq!(refusal(&outline), if m < 3 { Refusal::TooFewPieces { index: 0 } } else { later });
            }
            let apart = [&STILL[..], &[degree], &[0; 12][..2 * degree as usize + 2]].concat();
            let later = Refusal::Gap { index: 5 };
            assert_eq!(refusal(&apart), if m < 3 { Refusal::TooFewPieces { index: 5 } } else { later });
            // A curve before it is named first, and so is that it is one too many.
            assert_eq!(refusal(&[1, 0, i32::MAX, 0, 0, degree]), Refusal::Coordinate { index: 2 });
            assert_eq!(refusal(&[6, degree]), Refusal::Degree { index: 0 });
            let many = [&STILL.repeat(MOST_CURVES)[..], &[degree]].concat();
            assert_eq!(refusal(&many), Refusal::TooManyCurves { index: 5 * MOST_CURVES });
        }
    }
}
