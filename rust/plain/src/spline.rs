//! Uniform cubic B-splines (request 13): the checks of a list of points, and the curves that it gives.

use crate::curve::Curve;
use crate::refusal::Refusal;
use std::ops::RangeInclusive;

/// How many numbers a list of points may have, if it has x and y of each point.
const LENGTHS: RangeInclusive<usize> = 8..=8_198;

/// Coordinates that are taken, in stage units.
const COORDINATES: RangeInclusive<i32> = -131_072..=131_072;

/// The control points of a curve, as sums of its four neighbours b0 to b3 in sixths: (b0 + 4 b1 + b2)/6,
/// (2 b1 + b2)/3, (b1 + 2 b2)/3 and (b1 + 4 b2 + b3)/6.
const SIXTHS: [[i64; 4]; 4] = [[1, 4, 1, 0], [0, 4, 2, 0], [0, 2, 4, 0], [0, 1, 4, 1]];

/// The curves of a list of points, after checks 24 and 25. Their control values are sixths of a stage unit.
pub fn curves(points: &[i32]) -> Result<Vec<Curve>, Refusal> {
    let length = points.len();
    if length % 2 == 1 || !LENGTHS.contains(&length) {
        return Err(Refusal::SplineLength { length });
    }
    if let Some(index) = points.iter().position(|c| !COORDINATES.contains(c)) {
        return Err(Refusal::SplineCoordinate { index });
    }
    let points: Vec<&[i32]> = points.chunks_exact(2).collect();
    Ok(points.windows(4).map(curve).collect())
}

/// The curve of four neighbours.
fn curve(neighbours: &[&[i32]]) -> Curve {
    let mut curve = Curve { degree: 3, x: [0; 6], y: [0; 6], shift: 0 };
    for (i, weights) in SIXTHS.iter().enumerate() {
        for (weight, point) in weights.iter().zip(neighbours) {
            curve.x[i] += weight * i64::from(point[0]);
            curve.y[i] += weight * i64::from(point[1]);
        }
    }
    curve
}

#[cfg(test)]
mod tests {
    use super::*;

    fn refusal(points: &[i32]) -> Refusal {
        curves(points).expect_err("the list is faulty")
    }

    #[test]
    fn lists_have_8_to_8198_numbers_in_pairs() {
        for length in (0..8).chain([9, 11, 8_197, 8_199, 8_200]) {
            // Coordinates are looked at afterwards.
            assert_eq!(refusal(&vec![i32::MAX; length]), Refusal::SplineLength { length });
        }
        for points in [4, 5, 6, 64, 4_098, 4_099] {
            assert_eq!(curves(&vec![0; 2 * points]).map(|curves| curves.len()), Ok(points - 3));
        }
    }

    #[test]
    fn the_first_coordinate_out_of_range_is_named() {
        for bad in [i32::MIN, -131_073, 131_073, 1_048_576, i32::MAX] {
            for at in 0..10 {
                let mut points = [131_072, -131_072].repeat(5);
                points[at..].fill(bad);
                assert_eq!(refusal(&points), Refusal::SplineCoordinate { index: at });
            }
        }
        assert_eq!(curves(&[131_072, -131_072].repeat(5)).map(|curves| curves.len()), Ok(2));
    }

    #[test]
    fn control_points_are_those_of_the_document() {
        let values = curves(&[0, 0, 6, 12, 12, 0, 18, -6, 24, 5]).expect("the list is accepted");
        // (6 8), (8 8), (10 4), (12 1); then (12 1), (14 −2), (16 −4), (18 −19/6).
        let sixths = |x: [i64; 4], y: [i64; 4]| {
            let [x, y] = [x, y].map(|c| [c[0], c[1], c[2], c[3], 0, 0]);
            Curve { degree: 3, x, y, shift: 0 }
        };
        let first = sixths([36, 48, 60, 72], [48, 48, 24, 6]);
        let second = sixths([72, 84, 96, 108], [6, -12, -24, -19]);
        assert_eq!(values, [first, second]);
    }

    /// Each curve begins where the one before it ends, as do its first two derivatives: (c1 − c0) and
    /// (c0 − 2 c1 + c2).
    #[test]
    fn neighbouring_curves_meet_smoothly() {
        let points: Vec<i32> =
            (0..40_i64).map(|i| ((i * i * 7_919 + 31 * i) % 262_145 - 131_072) as i32).collect();
        let curves = curves(&points).expect("the list is accepted");
        for pair in curves.windows(2) {
            for (c, d) in [(pair[0].x, pair[1].x), (pair[0].y, pair[1].y)] {
                assert_eq!(c[3], d[0]);
                assert_eq!(c[3] - c[2], d[1] - d[0]);
                assert_eq!(c[1] - 2 * c[2] + c[3], d[0] - 2 * d[1] + d[2]);
            }
        }
    }
}
