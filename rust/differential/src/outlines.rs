//! Random outlines that pass every check, of many shapes, and ways to damage them.

use crate::pieces;
use crate::random::Random;
use std::ops::RangeInclusive;

/// The largest coordinate and its negative are in range, 1 more is not.
pub const EDGE: i32 = 1_048_576;

/// So many curves are taken, 1 more is not.
pub const MOST_CURVES: usize = 4_096;

/// How the control values of a curve are drawn.
#[derive(Debug, Clone, Copy)]
enum Shape {
    /// Every value the same.
    Point,
    /// On one straight line, evenly or not.
    Flat,
    /// Each value anywhere in a range of some size.
    Spiky,
    /// Each value 0 or at an end of its range.
    Extreme,
    /// Values from -3 to 3.
    Tiny,
    /// A path of small steps.
    Smooth,
    /// A shape in one coordinate, the other all the same.
    Upright,
}

const SHAPES: [Shape; 7] =
    [Shape::Point, Shape::Flat, Shape::Spiky, Shape::Extreme, Shape::Tiny, Shape::Smooth, Shape::Upright];

/// A tolerance that passes, each power of two as likely as the others.
pub fn tolerance(random: &mut Random) -> i32 {
    random.magnitude().max(2)
}

/// A second difference D for degrees 3 to 5 and m: where all are D, a box at depth j is some 3.5 × 4^(k − 1 − j)
/// sixteenths high, before it is rounded, k being the greatest depth. It is 16 × G × D / 10000 at depth 0.
fn steep(degree: i32, m: u32) -> i32 {
    match degree {
        3 => [4_740, 18_300, 40_000, 74_500, 117_000, 168_000, 229_000, 296_000][m as usize - 1],
        4 => [80, 144, 228, 328, 448, 584][m as usize - 3],
        5 => [46, 86, 134, 196, 268, 350][m as usize - 3],
        _ => panic!("there is no D for degree {degree}"),
    }
}

/// So many curves of degree 3, 4 or 5, each from where the one before ends, all of whose leaves of m pieces are
/// at the greatest depth at a tolerance of 3: their second differences are all 0 in x, and all −D in y.
pub fn deepest(random: &mut Random, degree: i32, curves: usize, m: u32) -> Vec<i32> {
    let steep = steep(degree, m);
    // A control point is so much higher than the ends, and the slant adds to it.
    let highest = EDGE - steep / 2 * (degree * degree / 4) - 20_000;
    let length = curves * (2 * degree as usize + 3);
    let mut outline: Vec<i32> = Vec::new();
    while outline.len() < length {
        let (x, y) = match outline[..] {
            [.., x, y] => (x, y),
            _ => (random.between(-EDGE, EDGE), random.between(-EDGE, highest)),
        };
        let (u, v) = (random.between(-30_000, 30_000), random.between(-10_000, 10_000));
        let point = |j: i32| [x + j * u, y + j * v + steep / 2 * j * (degree - j)];
        let curve: Vec<i32> = [degree].into_iter().chain((0..=degree).flat_map(point)).collect();
        // The end leaves room above for the next.
        if curve.iter().all(|&n| in_range(n)) && curve[curve.len() - 1] <= highest {
            outline.extend(curve);
        }
    }
    outline
}

/// Whether a number passes as a coordinate.
pub fn in_range(number: i32) -> bool {
    (-EDGE..=EDGE).contains(&number)
}

/// Mostly 1 to 6 curves, at times up to 64, of mixed shapes and of some degrees. Each curve begins where the
/// one before ends.
pub fn outline(random: &mut Random, degrees: RangeInclusive<i32>) -> Vec<i32> {
    let curves = if random.one_in(40) { random.between(7, 64) } else { random.between(1, 6) };
    let same_shape = random.one_in(3).then(|| random.pick(&SHAPES));
    let mut outline = Vec::new();
    for _ in 0..curves {
        let shape = same_shape.unwrap_or_else(|| random.pick(&SHAPES));
        let degree = random.between(*degrees.start(), *degrees.end());
        let mut curve = curve(random, shape, degree);
        if let [.., x, y] = outline[..] {
            join(random, &mut curve, [x, y]);
        }
        outline.extend(curve);
    }
    outline
}

/// Makes a curve begin at a point. It is moved there as a whole, which keeps its shape, in each
/// coordinate in which it then stays in range; otherwise, and at times, its first point alone is moved.
pub fn join(random: &mut Random, curve: &mut [i32], start: [i32; 2]) {
    let points = &mut curve[1..];
    if !random.one_in(4) {
        for (coordinate, start) in start.into_iter().enumerate() {
            let by = start - points[coordinate];
            let own = || (coordinate..points.len()).step_by(2);
            if own().all(|i| in_range(points[i] + by)) {
                for i in own() {
                    points[i] += by;
                }
            }
        }
    }
    points[..2].copy_from_slice(&start);
}

/// One curve: its degree and its points.
fn curve(random: &mut Random, shape: Shape, degree: i32) -> Vec<i32> {
    let x = values(random, shape, degree);
    let y = match shape {
        Shape::Upright => values(random, Shape::Point, degree),
        _ => values(random, shape, degree),
    };
    let (x, y) = if random.one_in(2) { (x, y) } else { (y, x) };
    let mut curve = vec![degree];
    curve.extend(x.iter().zip(&y).flat_map(|(&x, &y)| [x, y]));
    curve
}

/// The control values of one coordinate.
fn values(random: &mut Random, shape: Shape, degree: i32) -> Vec<i32> {
    let size = random.magnitude();
    let start = random.between(-size, size);
    let count = 0..=degree;
    match shape {
        Shape::Point => count.map(|_| start).collect(),
        Shape::Flat => {
            let end = random.between(-size, size);
            let even = random.one_in(2);
            let on_the_line = |i| {
                let part = if even { i } else { random.between(0, degree) };
                start + (i64::from(end - start) * i64::from(part) / i64::from(degree)) as i32
            };
            count.map(on_the_line).collect()
        }
        Shape::Spiky | Shape::Upright => count.map(|_| random.between(-size, size)).collect(),
        Shape::Extreme => count.map(|_| random.pick(&[-EDGE, 1 - EDGE, 0, EDGE - 1, EDGE])).collect(),
        Shape::Tiny => count.map(|_| random.between(-3, 3)).collect(),
        Shape::Smooth => {
            let step = random.magnitude().min(5_000);
            let mut at = start;
            let mut next = || {
                at = (at + random.between(-step, step)).clamp(-EDGE, EDGE);
                at
            };
            count.map(|_| next()).collect()
        }
    }
}

/// Numbers that a check must not mistake, wherever they stand.
pub const AWKWARD: [i32; 16] = [
    i32::MIN,
    i32::MIN + 1,
    -EDGE - 1,
    -EDGE,
    -1,
    0,
    1,
    2,
    3,
    4,
    5,
    6,
    EDGE,
    EDGE + 1,
    i32::MAX - 1,
    i32::MAX,
];

/// Damages an outline, its tolerance and m in one to three places. What results may still pass.
pub fn damage(random: &mut Random, outline: &mut Vec<i32>, tolerance: &mut i32, m: &mut u32) {
    for _ in 0..random.between(1, 3) {
        let length = outline.len();
        match random.below(10) {
            0 => *tolerance = random.pick(&AWKWARD),
            1 | 2 if length > 0 => outline[random.below(length)] = random.pick(&AWKWARD),
            3 if length > 0 => outline[random.below(length)] = random.bits() as i32,
            4 => outline.truncate(random.below(length + 1)),
            5 => outline.push(random.pick(&AWKWARD)),
            6 if length > 0 => {
                outline.remove(random.below(length));
            }
            7 => pieces::damage(random, m),
            8 if starts(outline).len() > 1 => part(random, outline),
            _ => {
                // Many curves more, at times past the most, with or without an end inside the last one.
                let [x, y] = if let [.., x, y] = outline[..] { [x, y] } else { [0, 0] };
                let most = if random.one_in(100) { MOST_CURVES } else { 64 };
                let lines = most + 1 - random.below(4);
                outline.extend([1, x, y, x, y].repeat(lines));
                outline.truncate(outline.len() - random.below(5));
            }
        }
    }
}

/// Where the degrees of an outline stand, as far as they are degrees.
pub fn starts(outline: &[i32]) -> Vec<usize> {
    let mut starts = Vec::new();
    let mut at = 0;
    while let Some(degree @ 1..=5) = outline.get(at) {
        starts.push(at);
        at += 3 + 2 * *degree as usize;
    }
    starts
}

/// Moves the first point of a curve away from the end of the curve before: by one in a coordinate, to
/// the first point of the curve before, or to where the padding stands.
fn part(random: &mut Random, outline: &mut [i32]) {
    let starts = starts(outline);
    let later = 1 + random.below(starts.len() - 1);
    let (before, first) = (starts[later - 1] + 1, starts[later] + 1);
    if first + 2 > outline.len() {
        return;
    }
    match random.below(4) {
        0 => outline.copy_within(before..before + 2, first),
        1 => outline[first..first + 2].fill(0),
        _ => {
            let number = &mut outline[first + random.below(2)];
            *number = number.saturating_add(random.pick(&[-1, 1]));
        }
    }
}

#[cfg(test)]
mod tests {
    use super::*;

    #[test]
    fn every_outline_passes_the_checks() {
        let mut random = Random::new(5);
        let mut lengths = Vec::new();
        for _ in 0..20_000 {
            let m = pieces::pieces(&mut random);
            let outline = outline(&mut random, pieces::degrees(m));
            assert!(outline.iter().all(|&n| in_range(n)));
            // At the widest tolerance nothing else is refused than the missing list.
            let refusal = plain::band(&outline, EDGE, m, &mut []).unwrap_err();
            assert_eq!(refusal.number(), 8);
            lengths.push(outline.len());
        }
        assert!(lengths.iter().any(|&n| n > 300) && lengths.contains(&5));
    }
}
