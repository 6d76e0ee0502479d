//! Curves with exact control values, and their halves.

/// Control values of one coordinate. Those past the degree are 0.
pub type Values = [i64; 6];

/// A curve, or a part of one that was halved some times. Every control value is a whole number
/// over 2^`shift`, of stage units in an outline and of sixths of them in a B-spline.
#[derive(Debug, Clone, Copy, PartialEq, Eq)]
pub struct Curve {
    pub degree: usize,
    pub x: Values,
    pub y: Values,
    pub shift: u32,
}

impl Curve {
    /// A curve from x and y of each control point in turn.
    pub fn new(degree: usize, points: &[i32]) -> Curve {
        let mut curve = Curve { degree, x: [0; 6], y: [0; 6], shift: 0 };
        for (i, point) in points.chunks_exact(2).enumerate() {
            curve.x[i] = i64::from(point[0]);
            curve.y[i] = i64::from(point[1]);
        }
        curve
    }

    /// The left half and the right half.
    pub fn halves(&self) -> (Curve, Curve) {
        let (left_x, right_x) = halves(self.x, self.degree);
        let (left_y, right_y) = halves(self.y, self.degree);
        let (degree, shift) = (self.degree, self.shift + self.degree as u32);
        let left = Curve { degree, x: left_x, y: left_y, shift };
        let right = Curve { degree, x: right_x, y: right_y, shift };
        (left, right)
    }
}

/// De Casteljau's step at 1/2. Sums stand for averages, so both halves come out scaled by
/// 2^degree.
fn halves(values: Values, degree: usize) -> (Values, Values) {
    let (mut left, mut right) = ([0; 6], [0; 6]);
    let mut sums = values;
    for last in (0..=degree).rev() {
        left[degree - last] = sums[0] << last;
        right[last] = sums[last] << last;
        for i in 0..last {
            sums[i] += sums[i + 1];
        }
    }
    (left, right)
}

#[cfg(test)]
mod tests {
    use super::*;
    use crate::degree::deepest;

    /// The Bernstein sum of the values at p/q, times q^degree.
    fn value(values: Values, degree: usize, p: i128, q: i128) -> i128 {
        const BINOMIALS: [&[i128]; 6] =
            [&[1], &[1, 1], &[1, 2, 1], &[1, 3, 3, 1], &[1, 4, 6, 4, 1], &[1, 5, 10, 10, 5, 1]];
        let power = |base: i128, times: usize| base.pow(times as u32);
        (0..=degree)
            .map(|i| {
                let weight = BINOMIALS[degree][i] * power(p, i) * power(q - p, degree - i);
                weight * i128::from(values[i])
            })
            .sum()
    }

    const EDGE: i64 = 1_048_576;
    const SAMPLES: [Values; 5] = [
        [0, 30, 30, 0, 20, 50],
        [EDGE, -EDGE, EDGE, -EDGE, EDGE, -EDGE],
        [-EDGE, -EDGE, -EDGE, -EDGE, -EDGE, -EDGE],
        [7, -1, 3, 12, -40, 9],
        [-EDGE, EDGE, EDGE - 1, 1, -EDGE, EDGE],
    ];

    fn sample(values: Values, degree: usize) -> Curve {
        let mut x = values;
        x[degree + 1..].fill(0);
        Curve { degree, x, y: x.map(|c| -c), shift: 0 }
    }

    #[test]
    fn halves_trace_the_curve_exactly() {
        let q = 12;
        for degree in 1..=5 {
            for curve in SAMPLES.map(|s| sample(s, degree)) {
                let (left, right) = curve.halves();
                assert_eq!((left.shift, right.shift), (degree as u32, degree as u32));
                for p in 0..=q {
                    let whole = |p| value(curve.x, degree, p, 2 * q);
                    let mirrored = |p| value(curve.y, degree, p, 2 * q);
                    assert_eq!(value(left.x, degree, p, q), whole(p));
                    assert_eq!(value(right.x, degree, p, q), whole(q + p));
                    assert_eq!(value(left.y, degree, p, q), mirrored(p));
                    assert_eq!(value(right.y, degree, p, q), mirrored(q + p));
                }
            }
        }
    }

    #[test]
    fn values_past_the_degree_stay_zero() {
        for degree in 1..=4 {
            let (left, right) = sample(SAMPLES[1], degree).halves();
            for half in [left, right] {
                assert!(half.x[degree + 1..].iter().all(|&c| c == 0));
                assert!(half.y[degree + 1..].iter().all(|&c| c == 0));
            }
        }
    }

    #[test]
    fn the_largest_second_difference_shrinks_to_a_quarter_or_less() {
        let largest = |v: Values, degree: usize| {
            (2..=degree).map(|i| (v[i - 2] - 2 * v[i - 1] + v[i]).abs()).max().unwrap_or(0)
        };
        for degree in 2..=5 {
            let mut nodes = SAMPLES.map(|s| sample(s, degree)).to_vec();
            for _ in 0..deepest(degree) {
                let mut next = Vec::new();
                for curve in nodes {
                    let (left, right) = curve.halves();
                    for half in [left, right] {
                        // Over the half's power of two this is a quarter of the whole's.
                        let quarter = largest(curve.x, degree) << (degree - 2);
                        assert!(largest(half.x, degree) <= quarter);
                        next.push(half);
                    }
                }
                nodes = next;
            }
        }
    }
}
