//! Drawing a cover: the convex hull of two boxes, as Andrew's monotone chain on their eight corners.

use crate::refusal::Refusal;
use std::ops::RangeInclusive;

/// Box numbers that are taken, in sixteenths of a stage unit.
const SIXTEENTHS: RangeInclusive<i32> = -536_870_912..=536_870_912;

/// How many numbers must be lent: x and y of eight vertices.
const ROOM: usize = 16;

type Point = (i32, i32);

/// Writes x and y of the vertices of the convex hull of two boxes to the front of `vertices`,
/// counter-clockwise from the lowest, then leftmost, and returns their count. A box is x low,
/// x high, y low, y high. Numbers past the vertices stay as they were, and so do all where the
/// answer is a refusal.
pub fn draw(first: [i32; 4], second: [i32; 4], vertices: &mut [i32]) -> Result<usize, Refusal> {
    if let Some(place) = first_bad(first).or_else(|| first_bad(second).map(|place| 4 + place)) {
        return Err(Refusal::BoxNumber { place });
    }
    if vertices.len() < ROOM {
        return Err(Refusal::TooFewVertices { length: vertices.len() });
    }
    let hull = Way::round(corners(first, second));
    for (pair, &(x, y)) in vertices.chunks_exact_mut(2).zip(hull.points()) {
        pair.copy_from_slice(&[x, y]);
    }
    Ok(hull.count)
}

/// The place of a box's first number that is beyond the range, or a low above its high.
pub fn first_bad(numbers: [i32; 4]) -> Option<usize> {
    let is_bad = |&place: &usize| {
        !SIXTEENTHS.contains(&numbers[place]) || place % 2 == 0 && numbers[place] > numbers[place + 1]
    };
    (0..4).find(is_bad)
}

/// The corners of two boxes, from the lowest, then leftmost.
fn corners(first: [i32; 4], second: [i32; 4]) -> [Point; 8] {
    let of = |[x_low, x_high, y_low, y_high]: [i32; 4]| {
        [(x_low, y_low), (x_high, y_low), (x_low, y_high), (x_high, y_high)]
    };
    let ([a, b, c, d], [e, f, g, h]) = (of(first), of(second));
    let mut corners = [a, b, c, d, e, f, g, h];
    corners.sort_unstable_by_key(|&(x, y)| (y, x));
    corners
}

/// A way that only turns left. The hull of eight points returns to the first of them, which is then
/// there twice.
struct Way {
    points: [Point; 9],
    count: usize,
}

impl Way {
    /// The hull of points in order: up on the right side, and back down on the left side.
    fn round(points: [Point; 8]) -> Way {
        let mut way = Way { points: [points[0]; 9], count: 1 };
        for &point in &points[1..] {
            way.go(point, 1);
        }
        let top = way.count;
        for &point in points[..7].iter().rev() {
            way.go(point, top);
        }
        // Without the first point at the end, unless the way never left it.
        way.count = (way.count - 1).max(1);
        way
    }

    fn points(&self) -> &[Point] {
        &self.points[..self.count]
    }

    /// Goes on to a point. Points after the first `kept` at which the way would not turn left are left
    /// out, and so is a point where it is already.
    fn go(&mut self, point: Point, kept: usize) {
        if self.points[self.count - 1] == point {
            return;
        }
        while self.count > kept && turn(self.points[self.count - 2], self.points[self.count - 1], point) <= 0
        {
            self.count -= 1;
        }
        self.points[self.count] = point;
        self.count += 1;
    }
}

/// Positive where the way from a by b to c turns left. The sizes are at most 2^30, so each product
/// and the difference fit i64.
fn turn(a: Point, b: Point, c: Point) -> i64 {
    let from_a = |p: Point| (i64::from(p.0) - i64::from(a.0), i64::from(p.1) - i64::from(a.1));
    let ((to_b_x, to_b_y), (to_c_x, to_c_y)) = (from_a(b), from_a(c));
    to_b_x * to_c_y - to_b_y * to_c_x
}

#[cfg(test)]
mod tests {
    use super::*;

    fn drawn(first: [i32; 4], second: [i32; 4]) -> Vec<i32> {
        let mut vertices = [7; 20];
        let count = draw(first, second, &mut vertices).expect("the boxes are accepted");
        assert!(vertices[2 * count..].iter().all(|&n| n == 7));
        vertices[..2 * count].to_vec()
    }

    #[test]
    fn the_examples_of_the_document() {
        assert_eq!(drawn([0, 1, 0, 1], [3, 4, 3, 4]), [0, 0, 1, 0, 4, 3, 4, 4, 3, 4, 0, 1]);
        assert_eq!(drawn([-10, 10, -1, 1], [-1, 1, -10, 10]).len(), 16);
        assert_eq!(drawn([5, 5, -2, -2], [5, 5, -2, -2]), [5, -2]);
    }

    #[test]
    fn flat_boxes_give_two_vertices() {
        assert_eq!(drawn([0, 9, 4, 4], [3, 20, 4, 4]), [0, 4, 20, 4]);
        assert_eq!(drawn([1, 1, 2, 2], [0, 0, 5, 5]), [1, 2, 0, 5]);
    }

    #[test]
    fn the_first_bad_number_is_named_before_the_room() {
        let mut none: [i32; 0] = [];
        let refused = |place| Err(Refusal::BoxNumber { place });
        assert_eq!(draw([2, 1, 0, 0], [0, 0, 9, 8], &mut none), refused(0));
        assert_eq!(draw([0, 536_870_913, 0, 0], [0; 4], &mut none), refused(1));
        assert_eq!(draw([0; 4], [0, 0, 0, i32::MIN], &mut none), refused(6));
        assert_eq!(draw([0; 4], [0; 4], &mut none), Err(Refusal::TooFewVertices { length: 0 }));
    }
}
