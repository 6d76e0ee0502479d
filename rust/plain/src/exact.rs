//! Banding a second time, for tests: in fractions, by the documents' own formulas and order, with the rows of
//! `docs/ROWS.md`.

use crate::documented::{pairs, Pair};
use std::ops::{Add, Mul, Neg, Sub};

/// A fraction in lowest terms. The number below the line is positive.
#[derive(Debug, Clone, Copy, PartialEq, Eq)]
struct Fraction {
    above: i128,
    below: i128,
}

impl Fraction {
    fn new(above: i128, below: i128) -> Fraction {
        let (mut a, mut b) = (above.abs(), below);
        while b != 0 {
            (a, b) = (b, a % b);
        }
        Fraction { above: above / a, below: below / a }
    }

    fn floor(self) -> i128 {
        self.above.div_euclid(self.below)
    }

    fn ceiling(self) -> i128 {
        -(-self).floor()
    }
}

impl Add for Fraction {
    type Output = Fraction;
    fn add(self, other: Fraction) -> Fraction {
        Fraction::new(self.above * other.below + other.above * self.below, self.below * other.below)
    }
}

impl Neg for Fraction {
    type Output = Fraction;
    fn neg(self) -> Fraction {
        Fraction { above: -self.above, below: self.below }
    }
}

impl Sub for Fraction {
    type Output = Fraction;
    fn sub(self, other: Fraction) -> Fraction {
        self + -other
    }
}

impl Mul for Fraction {
    type Output = Fraction;
    fn mul(self, other: Fraction) -> Fraction {
        Fraction::new(self.above * other.above, self.below * other.below)
    }
}

/// A whole number over another.
fn over(above: usize, below: usize) -> Fraction {
    Fraction::new(above as i128, below as i128)
}

/// One coordinate of each of some points, given as x and y in turn: 0 for x, 1 for y.
fn coordinate(points: &[i32], which: usize) -> Vec<Fraction> {
    points[which..].iter().step_by(2).map(|&c| Fraction::new(c.into(), 1)).collect()
}

/// The records of an outline that no check refuses, or 512 × curve + node of the first node at the greatest
/// depth, which is 8, or 4 for degrees 4 and 5, that does not meet the tolerance.
pub fn records(outline: &[i32], tolerance: i32, m: usize) -> Result<Vec<i32>, u64> {
    let mut curves = Vec::new();
    let mut at = 0;
    while at < outline.len() {
        let degree = outline[at] as usize;
        let points = &outline[at + 1..][..2 * (degree + 1)];
        curves.push([0, 1].map(|which| coordinate(points, which)));
        at += 3 + 2 * degree;
    }
    records_of(&curves, tolerance, m)
}

/// The records of the B-spline of a list of points that no check refuses, or the spot of refusal 7.
pub fn spline_records(points: &[i32], tolerance: i32, m: usize) -> Result<Vec<i32>, u64> {
    let curve = |first: usize| [0, 1].map(|which| control_values(&coordinate(&points[2 * first..], which)));
    let curves: Vec<_> = (0..points.len() / 2 - 3).map(curve).collect();
    records_of(&curves, tolerance, m)
}

/// One coordinate of the control points that request 13 makes of the first four points.
fn control_values(b: &[Fraction]) -> Vec<Fraction> {
    let (two, four) = (over(2, 1), over(4, 1));
    vec![
        over(1, 6) * (b[0] + four * b[1] + b[2]),
        over(1, 3) * (two * b[1] + b[2]),
        over(1, 3) * (b[1] + two * b[2]),
        over(1, 6) * (b[1] + four * b[2] + b[3]),
    ]
}

/// The records of curves, each as the control values of x and of y.
fn records_of(curves: &[[Vec<Fraction>; 2]], tolerance: i32, m: usize) -> Result<Vec<i32>, u64> {
    let rows: Vec<Pair> = pairs().into_iter().filter(|pair| pair.m == m).collect();
    let mut records = Vec::new();
    for (curve, values) in curves.iter().enumerate() {
        let degree = values[0].len() - 1;
        let greatest_depth = if [4, 5].contains(&degree) { 4 } else { 8 };
        let mut node = 1_usize;
        loop {
            let [x, y] = [0, 1].map(|which| bounds(&part(&values[which], node), &rows));
            let width = |(low, high): &(i128, i128)| high - low;
            let meets = |(x, y)| width(x).pow(2) + width(y).pow(2) <= i128::from(tolerance).pow(2);
            if x.iter().zip(&y).all(meets) {
                records.extend([curve as i32, node as i32]);
                let boxes = x.iter().zip(&y);
                records.extend(boxes.flat_map(|(x, y)| [x.0, x.1, y.0, y.1].map(|n| n as i32)));
                node = (node + 1) >> (node + 1).trailing_zeros();
                if node == 1 {
                    break;
                }
            } else if node.ilog2() == greatest_depth {
                return Err(512 * curve as u64 + node as u64);
            } else {
                node *= 2;
            }
        }
    }
    Ok(records)
}

/// The control values of a node: halved as its bits say, from the second highest on.
fn part(values: &[Fraction], node: usize) -> Vec<Fraction> {
    let mut part = values.to_vec();
    for bit in (0..node.ilog2()).rev() {
        let right = node >> bit & 1 == 1;
        if right {
            part.reverse();
        }
        // Each row of averages gives its first to the left half.
        let mut averages = part.clone();
        for value in &mut part {
            *value = averages[0];
            averages = averages.windows(2).map(|pair| over(1, 2) * (pair[0] + pair[1])).collect();
        }
        // The right half is the left one of the curve backwards, backwards.
        if right {
            part.reverse();
        }
    }
    part
}

/// The low and the high of a coordinate at each break point.
fn bounds(c: &[Fraction], rows: &[Pair]) -> Vec<(i128, i128)> {
    let degree = c.len() - 1;
    let m = rows[0].m;
    let bound = |i: usize, for_high: bool| {
        let mut sum = over(m - i, m) * c[0] + over(i, m) * c[degree];
        for pair in rows.iter().filter(|pair| pair.degree == degree) {
            let k = pair.difference;
            let difference = c[k] - over(2, 1) * c[k + 1] + c[k + 2];
            let row = if (difference.above > 0) == for_high { &pair.high } else { &pair.low };
            sum = sum + Fraction::new(row[i], 10_000) * difference;
        }
        over(16, 1) * sum
    };
    (0..=m).map(|i| (bound(i, false).floor(), bound(i, true).ceiling())).collect()
}
