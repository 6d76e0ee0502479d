//! Covers: the points between two boxes that follow one another.

use std::cmp::Ordering;

/// A fraction of two whole numbers. The one below the line is positive.
#[derive(Debug, Clone, Copy)]
struct Fraction {
    above: i64,
    below: i64,
}

impl Fraction {
    const ZERO: Fraction = Fraction { above: 0, below: 1 };
    const ONE: Fraction = Fraction { above: 1, below: 1 };
}

/// By cross products. Coordinates differ by at most 2^30, so these are at most 2^60.
impl Ord for Fraction {
    fn cmp(&self, other: &Fraction) -> Ordering {
        (self.above * other.below).cmp(&(other.above * self.below))
    }
}

impl PartialOrd for Fraction {
    fn partial_cmp(&self, other: &Fraction) -> Option<Ordering> {
        Some(self.cmp(other))
    }
}

impl PartialEq for Fraction {
    fn eq(&self, other: &Fraction) -> bool {
        self.cmp(other).is_eq()
    }
}

impl Eq for Fraction {}

/// The fractions s from one to another; none where the first is greater.
struct Interval {
    from: Fraction,
    to: Fraction,
}

impl Interval {
    /// Leaves out every s with slope × s > limit. For a slope of 0 the limit is not negative.
    fn keep(&mut self, slope: i64, limit: i64) {
        match slope.cmp(&0) {
            Ordering::Greater => self.to = self.to.min(Fraction { above: limit, below: slope }),
            Ordering::Less => self.from = self.from.max(Fraction { above: -limit, below: -slope }),
            Ordering::Equal => {}
        }
    }
}

/// Whether the cover between two boxes holds a point, edges included. A box is x low, x high, y low,
/// y high.
#[inline]
pub fn holds(first: &[i32; 4], second: &[i32; 4], x: i32, y: i32) -> bool {
    // Most points lie beyond both boxes on one side.
    x >= first[0].min(second[0])
        && x <= first[1].max(second[1])
        && y >= first[2].min(second[2])
        && y <= first[3].max(second[3])
        && mixture_holds(first, second, x, y)
}

/// Whether some mixture of the boxes holds a point that is not beyond both of them on any side.
fn mixture_holds(first: &[i32; 4], second: &[i32; 4], x: i32, y: i32) -> bool {
    let mut s = Interval { from: Fraction::ZERO, to: Fraction::ONE };
    for (at, z) in [(0, x), (2, y)] {
        let [low, high] = [first[at], first[at + 1]].map(i64::from);
        let [next_low, next_high] = [second[at], second[at + 1]].map(i64::from);
        let z = i64::from(z);
        // low + s (next low - low) <= z <= high + s (next high - high).
        s.keep(next_low - low, z - low);
        s.keep(high - next_high, high - z);
    }
    s.from <= s.to
}

#[cfg(test)]
mod tests {
    use super::*;

    /// Whether the cover holds the point, and the answer for all its mirror images: the boxes
    /// exchanged, x and y exchanged, x negated.
    fn held(first: [i32; 4], second: [i32; 4], x: i32, y: i32) -> bool {
        let answer = holds(&first, &second, x, y);
        let turned = |b: [i32; 4]| [b[2], b[3], b[0], b[1]];
        let negated = |b: [i32; 4]| [-b[1], -b[0], b[2], b[3]];
        assert_eq!(holds(&second, &first, x, y), answer);
        assert_eq!(holds(&turned(first), &turned(second), y, x), answer);
        assert_eq!(holds(&negated(first), &negated(second), -x, y), answer);
        answer
    }

    #[test]
    fn a_cover_holds_its_boxes_and_their_edges() {
        let (first, second) = ([0, 2, 0, 1], [10, 12, 5, 9]);
        for (x_low, x_high, y_low, y_high) in [(0, 2, 0, 1), (10, 12, 5, 9)] {
            for x in x_low..=x_high {
                for y in y_low..=y_high {
                    assert!(held(first, second, x, y));
                }
            }
        }
        assert!(!held(first, second, -1, 0) && !held(first, second, 0, -1));
        assert!(!held(first, second, 13, 9) && !held(first, second, 12, 10));
    }

    #[test]
    fn both_coordinates_take_the_same_s() {
        // A diagonal from a corner to a corner. (3 0) is in x's range and in y's, and off.
        let (first, second) = ([0, 1, 0, 1], [3, 4, 3, 4]);
        for (x, y, on) in [
            (1, 0, true),
            (4, 3, true),
            (2, 1, true),
            (3, 2, true),
            (0, 1, true),
            (3, 1, false),
            (2, 0, false),
            (3, 0, false),
            (0, 2, false),
            (1, 3, false),
        ] {
            assert_eq!(held(first, second, x, y), on, "({x} {y})");
        }
    }

    #[test]
    fn crossing_boxes_make_an_octagon() {
        let (first, second) = ([-10, 10, -1, 1], [-1, 1, -10, 10]);
        // The slanted sides are |x| + |y| = 11.
        for x in -11_i32..=11 {
            for y in -11_i32..=11 {
                let inside = x.abs() <= 10 && y.abs() <= 10 && x.abs() + y.abs() <= 11;
                assert_eq!(held(first, second, x, y), inside, "({x} {y})");
            }
        }
    }

    #[test]
    fn a_cover_of_two_points_is_a_segment() {
        let (first, second) = ([-3, -3, 1, 1], [6, 6, 7, 7]);
        for x in -5..=8 {
            for y in -1..=9 {
                // y = 1 + 2/3 (x + 3) between the ends.
                let on = (-3..=6).contains(&x) && 3 * (y - 1) == 2 * (x + 3);
                assert_eq!(held(first, second, x, y), on, "({x} {y})");
            }
        }
    }

    #[test]
    fn a_cover_of_one_point_holds_only_that() {
        let point = [5, 5, -7, -7];
        for x in 3..=7 {
            for y in -9..=-5 {
                assert_eq!(held(point, point, x, y), (x, y) == (5, -7));
            }
        }
    }

    #[test]
    fn flat_boxes_have_no_room_beside_them() {
        let (first, second) = ([0, 10, 4, 4], [0, 10, 4, 4]);
        assert!(held(first, second, 0, 4) && held(first, second, 10, 4));
        assert!(!held(first, second, 5, 3) && !held(first, second, 5, 5) && !held(first, second, 11, 4));
    }

    #[test]
    fn the_largest_numbers_are_compared_exactly() {
        const FAR: i32 = 536_870_912;
        let (first, second) = ([-FAR, -FAR, -FAR, -FAR], [FAR, FAR, FAR - 1, FAR - 1]);
        // The segment meets no whole point but its ends: 2^30 and 2^30 - 1 have no common divisor.
        assert!(held(first, second, -FAR, -FAR) && held(first, second, FAR, FAR - 1));
        for x in [1 - FAR, -1, 0, 1, FAR - 1] {
            for y in [x - 1, x, x + 1] {
                assert!(!held(first, second, x, y), "({x} {y})");
            }
        }
        // Widened by one in y, it has a whole point at every x.
        let (first, second) = ([-FAR, -FAR, -FAR, 1 - FAR], [FAR, FAR, FAR - 1, FAR]);
        for x in [1 - FAR, -1, 0, 1, FAR - 1] {
            assert!(held(first, second, x, x), "({x} {x})");
            assert!(!held(first, second, x, x + 1) && !held(first, second, x, x - 1));
        }
        let whole = [-FAR, FAR, -FAR, FAR];
        assert!(held(whole, whole, FAR, -FAR) && held(whole, first, -FAR, FAR));
    }
}
