//! The curves of an outline at rational parameters, exactly.

use crate::covers::Fraction;
use crate::wide::Wide;
use std::ops::{Add, Mul};

/// One curve of an outline that passes the checks.
#[derive(Debug, Clone, Copy)]
pub struct Curve<'a> {
    /// x and y of each control point in turn.
    points: &'a [i32],
}

/// The curves of an outline that passes the checks.
pub fn curves(outline: &[i32]) -> Vec<Curve<'_>> {
    let mut curves = Vec::new();
    let mut rest = outline;
    while let Some((&degree, numbers)) = rest.split_first() {
        let (points, after) = numbers.split_at(2 * (degree as usize + 1));
        curves.push(Curve { points });
        rest = after;
    }
    curves
}

/// Pascal's triangle.
const BINOMIALS: [&[i128]; 6] =
    [&[1], &[1, 1], &[1, 2, 1], &[1, 3, 3, 1], &[1, 4, 6, 4, 1], &[1, 5, 10, 10, 5, 1]];

impl Curve<'_> {
    /// The degree, 1 to 5.
    pub fn degree(&self) -> u32 {
        self.points.len() as u32 / 2 - 1
    }

    /// 16 times the curve's x and y at p/q, times q^degree: the Bernstein sums.
    pub fn sixteenths(&self, p: i128, q: i128) -> [i128; 2] {
        let scale = q.checked_pow(self.degree());
        assert!(scale.is_some_and(|scale| scale < 1 << 102), "no sum leaves 128 bits");
        self.sums(p, q)
    }

    /// The Bernstein sums in numbers that hold 2^24 × q^degree.
    fn sums<N: From<i128> + Copy + Add<Output = N> + Mul<Output = N>>(&self, p: i128, q: i128) -> [N; 2] {
        assert!(0 <= p && p <= q);
        let (p, rest) = (N::from(p), N::from(q - p));
        let binomials = BINOMIALS[self.degree() as usize];
        [0, 1].map(|coordinate| {
            let (mut sum, mut power) = (N::from(0), N::from(16));
            for (binomial, point) in binomials.iter().zip(self.points.chunks_exact(2)) {
                sum = sum * rest + N::from(binomial * i128::from(point[coordinate])) * power;
                power = power * p;
            }
            sum
        })
    }

    /// The point that equals the curve at p/q, where its coordinates are whole.
    pub fn whole_point(&self, p: i128, q: i128) -> Option<(i32, i32)> {
        let scale = q.pow(self.degree());
        let [x, y] = self.sixteenths(p, q);
        (x % scale == 0 && y % scale == 0).then(|| ((x / scale) as i32, (y / scale) as i32))
    }

    /// Whether the curve at p/q is within a tolerance of a point, as a distance.
    pub fn within(&self, p: i128, q: i128, tolerance: i32, x: i32, y: i32) -> bool {
        assert!(q < 1 << 44, "no square leaves 512 bits");
        let wide = |n: i32| Wide::from(i128::from(n));
        let scale = (0..self.degree()).fold(wide(1), |power, _| power * Wide::from(q));
        let [at_x, at_y] = self.sums(p, q);
        let square = |n: Wide| n * n;
        let off = |at: Wide, z: i32| square(at - wide(z) * scale);
        off(at_x, x) + off(at_y, y) <= square(wide(tolerance) * scale)
    }
}

/// The parameter p/q of a node's curve at which a cover's s stands, in lowest terms. A node at depth k
/// covers the parameters from (node − 2^k)/2^k on for 1/2^k, and each of its m covers an m-th of them.
pub fn parameter(node: i32, m: u32, cover: usize, s: Fraction) -> (i128, i128) {
    let depth = node.ilog2();
    let m = i128::from(m);
    let pieces = m * (i128::from(node) - (1 << depth)) + cover as i128;
    let (p, q) = (pieces * s.below + s.above, (m * s.below) << depth);
    let common = gcd(p, q);
    (p / common, q / common)
}

/// The greatest common divisor. The second is not 0.
pub fn gcd(a: i128, b: i128) -> i128 {
    if a == 0 {
        b
    } else {
        gcd(b % a, a)
    }
}

#[cfg(test)]
mod tests {
    use super::*;

    const OUTLINE: [i32; 14] = [3, 0, 0, 10, 30, 20, 30, 30, 0, 1, 30, 0, 0, 6];

    /// Degrees 4 and 5.
    const HIGHER: [i32; 24] =
        [4, 0, 0, 30, 90, -20, 7, 66, -50, 100, 1, 5, 100, 1, 30, 90, -20, 7, 66, -50, 99, 20, 41, 1];

    #[test]
    fn values_are_the_bernstein_sums() {
        let curves = curves(&OUTLINE);
        assert_eq!(curves.len(), 2);
        assert_eq!(curves[0].whole_point(0, 1), Some((0, 0)));
        assert_eq!(curves[0].whole_point(1, 2), Some((240, 360)));
        assert_eq!(curves[0].whole_point(1, 4), Some((120, 270)));
        assert_eq!(curves[0].whole_point(1, 7), None);
        assert_eq!(curves[1].whole_point(1, 3), Some((320, 32)));
        let higher = self::curves(&HIGHER);
        assert_eq!((higher[0].degree(), higher[1].degree()), (4, 5));
        assert_eq!(higher[0].whole_point(1, 1), Some((1600, 16)));
        // 4 × 30 − 6 × 20 + 4 × 66 + 100, and 4 × 90 + 6 × 7 − 4 × 50 + 1.
        assert_eq!(higher[0].whole_point(1, 2), Some((364, 203)));
        // Half of 100 + 5 × 30 − 10 × 20 + 10 × 66 + 5 × 99 + 41, and the like for y.
        assert_eq!(higher[1].whole_point(1, 2), Some((623, 61)));
    }

    #[test]
    fn within_is_a_distance_with_its_edge() {
        let curve = curves(&OUTLINE)[0];
        assert!(curve.within(1, 2, 5, 243, 356) && curve.within(1, 2, 5, 236, 363));
        assert!(curve.within(1, 2, 5, 245, 360) && curve.within(1, 2, 5, 240, 355));
        assert!(!curve.within(1, 2, 5, 244, 364) && !curve.within(1, 2, 5, 240, 366));
        // A point 5 off the middle is less from the curve just before or just after it, and more from the other.
        for curve in curves(&HIGHER) {
            let (x, y) = curve.whole_point(1, 2).expect("the middle is whole");
            let q = (1 << 44) - 2;
            let at = |p: i128| curve.within(p, q, 5, x + 3, y - 4);
            assert!(at(q / 2) && at(q / 2 - 1) != at(q / 2 + 1));
            assert!(!curve.within(q / 2, q, 4, x + 3, y - 4) && curve.within(q / 2 + 1, q, 1, x, y));
        }
    }

    #[test]
    fn parameters_follow_the_document() {
        let half = Fraction { above: 1, below: 2 };
        assert_eq!(parameter(1, 3, 0, Fraction { above: 0, below: 5 }), (0, 1));
        assert_eq!(parameter(1, 3, 1, half), (1, 2));
        assert_eq!(parameter(3, 3, 0, Fraction { above: 0, below: 1 }), (1, 2));
        assert_eq!(parameter(511, 3, 2, Fraction { above: 1, below: 1 }), (1, 1));
        assert_eq!(parameter(6, 3, 1, half), (5, 8));
        assert_eq!(parameter(1, 8, 5, half), (11, 16));
        assert_eq!(parameter(3, 1, 0, half), (3, 4));
    }
}
