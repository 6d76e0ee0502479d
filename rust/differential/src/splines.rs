//! Random lists of points of B-splines that pass every check, of many shapes, ways to damage them, and a spline at
//! rational parameters, exactly, by the basis of uniform cubic B-splines.

use crate::outlines::AWKWARD;
use crate::pieces;
use crate::random::Random;
use crate::wide::Wide;
use std::ops::{Add, Mul, Sub};

/// The largest coordinate of a point and its negative are in range, 1 more is not.
pub const EDGE: i32 = 131_072;

/// So many points are taken, 1 more is not.
pub const MOST_POINTS: usize = 4_099;

/// How the points of a list are drawn.
#[derive(Debug, Clone, Copy)]
enum Shape {
    /// Every point the same.
    Still,
    /// On one straight line, evenly or not.
    Line,
    /// Each coordinate anywhere in a range of some size.
    Spiky,
    /// Each coordinate at an end of its range, next to it, or 0.
    Extreme,
    /// Coordinates from −3 to 3.
    Tiny,
    /// A path of small steps.
    Smooth,
    /// A path of small steps, at which points stand up to four times.
    Repeated,
}

const SHAPES: [Shape; 7] =
    [Shape::Still, Shape::Line, Shape::Spiky, Shape::Extreme, Shape::Tiny, Shape::Smooth, Shape::Repeated];

/// Mostly 4 to 9 points, at times up to 67.
pub fn points(random: &mut Random) -> Vec<i32> {
    let count = if random.one_in(40) { random.between(10, 67) } else { random.between(4, 9) };
    let shape = random.pick(&SHAPES);
    let size = random.magnitude().min(EDGE);
    let start = [0, 1].map(|_| random.between(-size, size));
    let end = [0, 1].map(|_| random.between(-size, size));
    let (even, step) = (random.one_in(2), random.magnitude().min(5_000));
    let mut at = start;
    let mut points = Vec::new();
    for i in 0..count {
        let along = if even { i } else { random.between(0, count) };
        let between = |which: usize| {
            start[which] + (i64::from(end[which] - start[which]) * i64::from(along) / i64::from(count)) as i32
        };
        let point = match shape {
            Shape::Still => start,
            Shape::Line => [between(0), between(1)],
            Shape::Spiky => [0, 1].map(|_| random.between(-size, size)),
            Shape::Extreme => [0, 1].map(|_| random.pick(&[-EDGE, 1 - EDGE, 0, EDGE - 1, EDGE])),
            Shape::Tiny => [0, 1].map(|_| random.between(-3, 3)),
            Shape::Repeated if !random.one_in(3) => at,
            Shape::Smooth | Shape::Repeated => {
                at.map(|z| (z + random.between(-step, step)).clamp(-EDGE, EDGE))
            }
        };
        at = point;
        points.extend(point);
    }
    points
}

/// Damages a list of points, its tolerance and m in one to three places. What results may still pass.
pub fn damage(random: &mut Random, points: &mut Vec<i32>, tolerance: &mut i32, m: &mut u32) {
    for _ in 0..random.between(1, 3) {
        let length = points.len();
        let awkward = if random.one_in(2) {
            random.pick(&AWKWARD)
        } else {
            random.pick(&[-EDGE - 1, -EDGE, EDGE, EDGE + 1])
        };
        match random.below(9) {
            0 => *tolerance = random.pick(&AWKWARD),
            1..=3 if length > 0 => points[random.below(length)] = awkward,
            4 => points.truncate(random.below(length + 1)),
            5 => points.push(awkward),
            6 if length > 0 => {
                points.remove(random.below(length));
            }
            7 => pieces::damage(random, m),
            _ if random.one_in(20) => points.resize(2 * MOST_POINTS - 3 + random.below(7), 0),
            _ => points.extend([awkward; 3]),
        }
    }
}

/// The curve of four neighbours of a B-spline.
#[derive(Debug, Clone, Copy)]
pub struct Curve<'a> {
    /// x and y of each neighbour in turn.
    neighbours: &'a [i32],
}

/// The curves of a list of points that passes the checks.
pub fn curves(points: &[i32]) -> Vec<Curve<'_>> {
    (0..points.len() / 2 - 3).map(|first| Curve { neighbours: &points[2 * first..][..8] }).collect()
}

impl Curve<'_> {
    /// 16 times the curve's x and y at p/q, times 6 q³: the sums of the basis over the neighbours. With t = p/q the
    /// basis is (1 − t)³/6, (3 t³ − 6 t² + 4)/6, (−3 t³ + 3 t² + 3 t + 1)/6 and t³/6.
    fn sums<N>(&self, p: i128, q: i128) -> [N; 2]
    where
        N: From<i128> + Copy + Add<Output = N> + Sub<Output = N> + Mul<Output = N>,
    {
        assert!(0 <= p && p <= q);
        let whole = |n: i128| N::from(n);
        let [p, r, q] = [p, q - p, q].map(N::from);
        let basis = [
            r * r * r,
            whole(3) * p * p * p - whole(6) * p * p * q + whole(4) * q * q * q,
            whole(3) * p * p * q + whole(3) * p * q * q + q * q * q - whole(3) * p * p * p,
            p * p * p,
        ];
        [0, 1].map(|which| {
            let terms = basis.iter().zip(self.neighbours[which..].iter().step_by(2));
            terms.fold(whole(0), |sum, (&weight, &b)| sum + weight * whole(16 * i128::from(b)))
        })
    }

    /// The curve's x and y at p/q in sixteenths, rounded down.
    pub fn near_point(&self, p: i128, q: i128) -> (i32, i32) {
        let [x, y] = self.sums::<i128>(p, q).map(|z| z.div_euclid(6 * q.pow(3)) as i32);
        (x, y)
    }

    /// The point that equals the curve at p/q, where its coordinates are whole sixteenths.
    pub fn whole_point(&self, p: i128, q: i128) -> Option<(i32, i32)> {
        let scale = 6 * q.pow(3);
        let [x, y] = self.sums::<i128>(p, q);
        (x % scale == 0 && y % scale == 0).then(|| ((x / scale) as i32, (y / scale) as i32))
    }

    /// Whether the curve at p/q is within a tolerance of a point, as a distance.
    pub fn within(&self, p: i128, q: i128, tolerance: i32, x: i32, y: i32) -> bool {
        assert!(q < 1 << 44, "no square leaves 512 bits");
        let wide = |n: i32| Wide::from(i128::from(n));
        let scale = Wide::from(6) * Wide::from(q) * Wide::from(q) * Wide::from(q);
        let [at_x, at_y] = self.sums::<Wide>(p, q);
        let square = |n: Wide| n * n;
        let off = |at: Wide, z: i32| square(at - wide(z) * scale);
        off(at_x, x) + off(at_y, y) <= square(wide(tolerance) * scale)
    }
}

#[cfg(test)]
mod tests {
    use super::*;

    #[test]
    fn every_list_passes_the_checks() {
        let mut random = Random::new(6);
        for _ in 0..20_000 {
            let points = points(&mut random);
            let m = pieces::pieces(&mut random);
            // At the widest tolerance nothing else is refused than the missing list.
            let refusal = plain::spline_band(&points, 1_048_576, m, &mut []).unwrap_err();
            assert_eq!(refusal.number(), 8);
        }
    }

    #[test]
    fn values_are_those_of_the_basis() {
        // Four points: (10 25), (40/3 30), (50/3 30), (20 25) are the control points.
        let points = [0, 0, 10, 30, 20, 30, 30, 0];
        let curve = curves(&points)[0];
        assert_eq!(curve.whole_point(0, 1), Some((160, 400)));
        assert_eq!(curve.whole_point(1, 1), Some((320, 400)));
        assert_eq!(curve.whole_point(1, 2), Some((240, 460)));
        assert_eq!(curve.whole_point(1, 3), None);
        assert_eq!(curve.near_point(1, 3), (213, 453));
        // Four equal points are that point everywhere: the basis adds up to 1.
        let still = [-7, 5].repeat(4);
        assert!((0..=9).all(|p| curves(&still)[0].whole_point(p, 9) == Some((-112, 80))));
    }

    #[test]
    fn within_is_a_distance_with_its_edge() {
        let points = [0, 0, 10, 30, 20, 30, 30, 0];
        let curve = curves(&points)[0];
        assert!(curve.within(1, 2, 5, 243, 456) && curve.within(1, 2, 5, 236, 463));
        assert!(curve.within(1, 2, 5, 245, 460) && curve.within(1, 2, 5, 240, 455));
        assert!(!curve.within(1, 2, 5, 244, 464) && !curve.within(1, 2, 5, 240, 466));
    }
}
