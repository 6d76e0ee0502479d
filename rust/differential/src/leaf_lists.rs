//! Random leaf lists that pass every check, whether or not banding would write them, points near
//! their covers, and ways to damage both.

use crate::pieces::{self, pieces};
use crate::random::Random;
use plain::record_length;

/// The largest box number and coordinate of a point. 1 more is out of range.
pub const FARTHEST: i32 = 536_870_912;

/// Box numbers at the ends of the range and round 0.
const EXTREMES: [i32; 7] = [-FARTHEST, 1 - FARTHEST, -1, 0, 1, FARTHEST - 1, FARTHEST];

/// How the bounds of one coordinate of a box are drawn.
#[derive(Debug, Clone, Copy)]
enum Width {
    /// The low is the high.
    None,
    /// At most three steps.
    Thin,
    /// Anything.
    Any,
    /// Each bound at an end of the range or near 0.
    Extreme,
}

const WIDTHS: [Width; 4] = [Width::None, Width::Thin, Width::Any, Width::Extreme];

/// A leaf list and a number that divides the differences of most of its bounds: where s has that
/// number below the line, the mixture of two boxes has whole sides.
#[derive(Debug, Clone)]
pub struct LeafList {
    /// The records.
    pub numbers: Vec<i32>,
    /// The number of pieces of each.
    pub m: u32,
    step: i32,
}

/// Mostly 1 to 4 records, at times up to 60, of any number of pieces.
pub fn leaf_list(random: &mut Random) -> LeafList {
    let m = pieces(random);
    let records = if random.one_in(40) { random.between(5, 60) } else { random.between(1, 4) };
    let step = if random.one_in(2) { 1 } else { random.magnitude() };
    let mut numbers = Vec::new();
    for _ in 0..records {
        numbers.push(random.pick(&[0, 1, 64, 4_095]));
        numbers.push(random.between(1, 511));
        boxes(random, m, step, &mut numbers);
    }
    LeafList { numbers, m, step }
}

/// The boxes of a record.
fn boxes(random: &mut Random, m: u32, step: i32, numbers: &mut Vec<i32>) {
    let widths = [random.pick(&WIDTHS), random.pick(&WIDTHS)];
    // Up to 2^29, each power of two as likely as the others, in steps.
    let size = (FARTHEST / step).min(1 << random.below(30));
    let base = random.between(-(FARTHEST - step * size), FARTHEST - step * size);
    for i in 0..=m {
        if i > 0 && random.one_in(6) {
            // The box before once more.
            numbers.extend_from_within(numbers.len() - 4..);
            continue;
        }
        for width in widths {
            let at = random.between(-size, size);
            let (one, other) = match width {
                Width::None => (at, at),
                Width::Thin => (at, (at + random.between(0, 3)).min(size)),
                Width::Any => (at, random.between(-size, size)),
                Width::Extreme => {
                    let (one, other) = (random.pick(&EXTREMES), random.pick(&EXTREMES));
                    numbers.extend([one.min(other), one.max(other)]);
                    continue;
                }
            };
            numbers.extend([one.min(other), one.max(other)].map(|n| base + step * n));
        }
    }
}

impl LeafList {
    /// A list as banding wrote it.
    pub fn new(numbers: Vec<i32>, m: u32) -> LeafList {
        LeafList { numbers, m, step: 1 }
    }

    /// A point in range: mostly on an edge or a corner of a mixture of two boxes, or one or two off it.
    pub fn point(&self, random: &mut Random) -> (i32, i32) {
        if random.one_in(16) {
            let far = if random.one_in(2) { FARTHEST } else { random.magnitude() };
            return (random.between(-far, far), random.between(-far, far));
        }
        if random.one_in(32) {
            return (random.pick(&EXTREMES), random.pick(&EXTREMES));
        }
        let length = record_length(self.m);
        let record = length * random.below(self.numbers.len() / length);
        let start = record + 2 + 4 * random.below(self.m as usize);
        let boxes = &self.numbers[start..start + 8];
        // s is part / parts.
        let parts = match random.below(4) {
            0 => 1,
            1 => random.magnitude(),
            _ => self.step,
        };
        let part = random.between(0, parts);
        let mut near = |at: usize| {
            let [low, high] = [at, at + 1].map(|i| {
                let sum =
                    i64::from(boxes[i]) * i64::from(parts - part) + i64::from(boxes[i + 4]) * i64::from(part);
                // Either way of rounding, where the side is not whole.
                let up = if random.one_in(2) { i64::from(parts) - 1 } else { 0 };
                ((sum + up).div_euclid(i64::from(parts))) as i32
            });
            let target = match random.below(5) {
                0 | 1 => low,
                2 | 3 => high,
                _ => random.between(low.min(high), low.max(high)),
            };
            (target + random.pick(&[0, 0, 0, 0, 1, -1, 2, -2])).clamp(-FARTHEST, FARTHEST)
        };
        (near(0), near(2))
    }
}

/// Numbers that a check must not mistake, wherever they stand.
pub const AWKWARD: [i32; 16] = [
    i32::MIN,
    i32::MIN + 1,
    -FARTHEST - 1,
    -FARTHEST,
    -1,
    0,
    1,
    2,
    511,
    512,
    4_095,
    4_096,
    FARTHEST,
    FARTHEST + 1,
    i32::MAX - 1,
    i32::MAX,
];

/// Damages a list, m and a point in one to three places. What results may still pass.
pub fn damage(random: &mut Random, leaves: &mut Vec<i32>, m: &mut u32, x: &mut i32, y: &mut i32) {
    for _ in 0..random.between(1, 3) {
        let length = leaves.len();
        match random.below(13) {
            0..=3 if length > 0 => leaves[random.below(length)] = random.pick(&AWKWARD),
            4 if length > 0 => leaves[random.below(length)] = random.bits() as i32,
            5 | 6 if length > 3 => {
                // A low and its high, or a high and the low after it.
                let at = 2 + random.below(length - 3);
                leaves.swap(at, at + 1);
            }
            7 => *x = random.pick(&AWKWARD),
            8 => *y = random.pick(&AWKWARD),
            9 if random.one_in(3) => leaves.truncate(random.below(length + 1)),
            10 if random.one_in(3) => leaves.push(random.pick(&AWKWARD)),
            11 => pieces::damage(random, m),
            12 if random.one_in(3) && length > 0 => {
                leaves.remove(random.below(length));
            }
            _ => (*x, *y) = (random.bits() as i32, random.bits() as i32),
        }
    }
}

#[cfg(test)]
mod tests {
    use super::*;

    #[test]
    fn every_list_and_point_pass_the_checks() {
        let mut random = Random::new(6);
        let (mut on, mut off, mut longest) = (0, 0, 0);
        for _ in 0..20_000 {
            let list = leaf_list(&mut random);
            longest = longest.max(list.numbers.len());
            for _ in 0..4 {
                let (x, y) = list.point(&mut random);
                match plain::judge(&list.numbers, list.m, x, y).expect("nothing is refused") {
                    plain::Judgement::On { .. } => on += 1,
                    plain::Judgement::Off => off += 1,
                }
            }
        }
        // Neither answer is rare.
        assert!(on > 15_000 && off > 15_000, "{on} on, {off} off");
        assert!(longest > record_length(8) * 50);
    }
}
