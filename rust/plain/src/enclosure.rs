//! The enclosure of a curve: the box at each break point.

use crate::curve::{Curve, Values};
use crate::rows::Rows;

/// A low and a high of one coordinate, in sixteenths.
#[derive(Debug, Clone, Copy, PartialEq, Eq, Default)]
pub struct Bounds {
    pub low: i64,
    pub high: i64,
}

impl Bounds {
    fn width(self) -> i64 {
        self.high - self.low
    }
}

/// The bounds of both coordinates at one break point.
#[derive(Debug, Clone, Copy, PartialEq, Eq, Default)]
pub struct BoxBounds {
    pub x: Bounds,
    pub y: Bounds,
}

impl BoxBounds {
    /// Whether the diagonal is at most the tolerance.
    fn meets(self, tolerance: i64) -> bool {
        self.x.width().pow(2) + self.y.width().pow(2) <= tolerance.pow(2)
    }
}

impl Curve {
    /// The boxes at B break points, or nothing where the diagonal of one of them is longer than the
    /// tolerance. U control values make a stage unit.
    pub fn boxes_within<const B: usize, const U: i64>(&self, tolerance: i64) -> Option<[BoxBounds; B]> {
        // The compiler then knows how many second differences there are.
        match self.degree {
            1 => self.boxes::<B, U, 0>(tolerance),
            2 => self.boxes::<B, U, 1>(tolerance),
            3 => self.boxes::<B, U, 2>(tolerance),
            4 => self.boxes::<B, U, 3>(tolerance),
            _ => self.boxes::<B, U, 4>(tolerance),
        }
    }

    fn boxes<const B: usize, const U: i64, const D: usize>(&self, tolerance: i64) -> Option<[BoxBounds; B]> {
        let x = Enclosure::<B, U, D>::new(&self.x, self.shift);
        let y = Enclosure::<B, U, D>::new(&self.y, self.shift);
        let mut boxes = [BoxBounds::default(); B];
        for (i, at) in boxes.iter_mut().enumerate() {
            *at = BoxBounds { x: x.bounds(i), y: y.bounds(i) };
            if !at.meets(tolerance) {
                return None;
            }
        }
        Some(boxes)
    }
}

/// What the bounds of one coordinate at B break points are made of: control values over 2^`shift`, of which U
/// make a stage unit, with D second differences.
struct Enclosure<const B: usize, const U: i64, const D: usize> {
    first: i64,
    last: i64,
    differences: [Difference<B>; D],
    shift: u32,
}

/// A second difference, with the rows that its sign chooses for the low and for the high.
struct Difference<const B: usize> {
    value: i64,
    low: &'static [i64; B],
    high: &'static [i64; B],
}

impl<const B: usize> Difference<B> {
    fn new(value: i64, rows: &'static Rows<B>) -> Difference<B> {
        if value > 0 {
            Difference { value, low: &rows.low, high: &rows.high }
        } else {
            Difference { value, low: &rows.high, high: &rows.low }
        }
    }
}

impl<const B: usize, const U: i64, const D: usize> Enclosure<B, U, D> {
    /// The number of pieces between the break points.
    const M: i64 = B as i64 - 1;

    fn new(values: &Values, shift: u32) -> Enclosure<B, U, D> {
        let rows = Rows::of(D + 1);
        let difference = |k: usize| values[k] - 2 * values[k + 1] + values[k + 2];
        let differences = std::array::from_fn(|k| Difference::new(difference(k), &rows[k]));
        Enclosure { first: values[0], last: values[D + 1], differences, shift }
    }

    /// The bounds at break point `i`. The document's sum of m-ths and ten-thousandths, times 16, is one
    /// fraction over 625 × m × U × 2^shift.
    ///
    /// It stays within 64 bits. A control value over 2^shift is at most 2^20 in size, also in sixths, which are
    /// at most 6 × 2^17; so at degree 3 and depth 8 it is at most 2^44, and a difference 2^46; m times an entry is
    /// below 2^15, so the chord is below 2^61 and two rows add at most 2^62. At degree 5 and depth 4 they are at
    /// most 2^40 and 2^42; m times an entry is below 2^16, so the chord is below 2^57 and four rows add at most
    /// 2^60. Lower degrees have less.
    fn bounds(&self, i: usize) -> Bounds {
        let along = i as i64;
        let chord = 10_000 * ((Self::M - along) * self.first + along * self.last);
        let (mut low, mut high) = (chord, chord);
        for difference in &self.differences {
            low += Self::M * difference.low[i] * difference.value;
            high += Self::M * difference.high[i] * difference.value;
        }
        Bounds { low: self.floor(low), high: -self.floor(-high) }
    }

    /// A number over 625 × m × U × 2^shift, rounded down: first by the power of two, then by a divisor that the
    /// compiler knows.
    fn floor(&self, number: i64) -> i64 {
        (number >> self.shift).div_euclid(625 * Self::M * U)
    }
}

#[cfg(test)]
mod tests {
    use super::*;
    use crate::degree::{deepest, fewest_pieces};
    use crate::pieces::for_pieces;

    /// The bounds of one coordinate at every break point.
    fn bounds<const B: usize, const U: i64>(values: &Values, degree: usize, shift: u32) -> [Bounds; B] {
        let curve = Curve { degree, x: *values, y: *values, shift };
        let boxes = curve.boxes_within::<B, U>(1 << 30).expect("no box is so large");
        boxes.map(|b| b.x)
    }

    /// The document's formula, kept over m × 10000 × U × 2^shift in wide numbers.
    fn formula<const B: usize, const U: i64>(values: &Values, degree: usize, shift: u32, i: usize) -> Bounds {
        let c: Vec<i128> = values[..=degree].iter().map(|&v| i128::from(v)).collect();
        let (m, i_wide) = (B as i128 - 1, i as i128);
        let chord = ((m - i_wide) * c[0] + i_wide * c[degree]) * 10_000;
        let sum = |for_high: bool| -> i128 {
            (0..degree - 1)
                .map(|k| {
                    let difference = c[k] - 2 * c[k + 1] + c[k + 2];
                    let pair = &Rows::<B>::of(degree)[k];
                    let row = if for_high == (difference > 0) { pair.high } else { pair.low };
                    i128::from(row[i]) * difference * m
                })
                .sum()
        };
        let over = (m * 10_000 * i128::from(U)) << shift;
        let low = (16 * (chord + sum(false))).div_euclid(over);
        let high = -(-16 * (chord + sum(true))).div_euclid(over);
        Bounds { low: low as i64, high: high as i64 }
    }

    #[test]
    fn bounds_are_the_documents_formula() {
        for m in 1..=8 {
            for degree in (1..=5).filter(|&degree| m >= fewest_pieces(degree)) {
                for_pieces!(m, bounds_in_units_are_the_formula)(degree);
            }
            for_pieces!(m, bounds_in_sixths_are_the_formula)();
        }
    }

    fn bounds_in_units_are_the_formula<const B: usize>(degree: usize) {
        bounds_are_the_formula::<B, 1>(degree);
    }

    /// Of the degree of a B-spline's curves.
    fn bounds_in_sixths_are_the_formula<const B: usize>() {
        bounds_are_the_formula::<B, 6>(3);
    }

    fn bounds_are_the_formula<const B: usize, const U: i64>(degree: usize) {
        const EDGE: i64 = 1_048_576;
        const SOME: [i64; 8] = [-EDGE, -37, 1, EDGE, 18, -EDGE + 1, 0, -1];
        // The more control values, the fewer numbers for each.
        let some = &SOME[..if degree <= 3 { 8 } else { 4 }];
        for choice in 0..some.len().pow(degree as u32 + 1) {
            let mut values =
                [0, 1, 2, 3, 4, 5].map(|place| some[choice / some.len().pow(place) % some.len()]);
            values[degree + 1..].fill(0);
            let mut node = Curve { degree, x: values, y: values, shift: 0 };
            for depth in 0..=deepest(degree) {
                for (i, got) in bounds::<B, U>(&node.x, degree, node.shift).into_iter().enumerate() {
                    assert_eq!(got, formula::<B, U>(&node.x, degree, node.shift, i));
                    assert!(got.low <= got.high);
                    // A record holds it, and passes check 10.
                    assert!(got.low.abs().max(got.high.abs()) <= 536_870_912);
                }
                if depth < deepest(degree) {
                    node = node.halves().1;
                }
            }
        }
    }

    #[test]
    fn a_low_is_rounded_down_below_zero() {
        // -37.6, 37.6 and -38, over 1875 and over 7500.
        for shift in [0, 2] {
            let over = Enclosure::<4, 1, 0>::new(&[0; 6], shift);
            assert_eq!(over.floor(-70_500 << shift), -38);
            assert_eq!(over.floor(70_500 << shift), 37);
            assert_eq!(over.floor(-71_250 << shift), -38);
            let sixths = Enclosure::<4, 6, 0>::new(&[0; 6], shift);
            assert_eq!(sixths.floor(-6 * 70_500 << shift), -38);
            assert_eq!(sixths.floor(-6 * 71_250 << shift), -38);
            assert_eq!(sixths.floor(-6 * 71_250 - 1 << shift), -39);
        }
    }

    #[test]
    fn each_difference_chooses_its_row_by_its_own_sign() {
        // Differences 1 and -1: one row for the whole sum would give other bounds.
        let values = [0, 0, 1, 1, 0, 0];
        let tenthousandths = |i: usize| match i {
            0 => (-696, 88),
            1 => (3333 - 4400 + 2962, 3333 - 3703 + 3155),
            2 => (6666 - 3155 + 3703, 6667 - 2962 + 4400),
            _ => (10_000 - 88, 10_000 + 696),
        };
        for (i, got) in bounds::<4, 1>(&values, 3, 0).into_iter().enumerate() {
            let (low, high) = tenthousandths(i);
            let expected = ((16_i64 * low).div_euclid(10_000), -(-16_i64 * high).div_euclid(10_000));
            assert_eq!((got.low, got.high), expected);
        }
    }

    #[test]
    fn the_widest_box_decides_wherever_it_is() {
        for m in 1..=8 {
            for_pieces!(m, widest_box_decides)();
        }
    }

    fn widest_box_decides<const B: usize>() {
        let mut inside = false;
        for inner in [[10_000, 0], [1_000, 1_000], [100, 100], [0, 100]] {
            let y = [0, inner[0], inner[1], 0, 0, 0];
            let curve = Curve { degree: 3, x: [0; 6], y, shift: 0 };
            let widths = bounds::<B, 1>(&y, 3, 0).map(Bounds::width);
            let widest = widths.into_iter().max().expect("there are boxes");
            assert!(curve.boxes_within::<B, 1>(widest).is_some());
            assert!(curve.boxes_within::<B, 1>(widest - 1).is_none());
            inside |= widest > widths[0].max(widths[B - 1]);
        }
        // A test of the first and last boxes only would miss it.
        assert_eq!(inside, B > 2);
    }
}
