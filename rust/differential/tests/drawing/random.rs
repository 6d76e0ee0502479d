//! Random pairs of boxes with fixed seeds: near each other, far apart, at the ends of the range.

use differential::drawing::{random_box, related, Comparison, FARTHEST};
use differential::random::Random;

const EACH: u64 = 80_000;

fn pairs(name: &'static str, seed: u64, sizes: &[i32]) {
    let mut comparison = Comparison::new(name, seed);
    let mut random = Random::new(seed);
    for _ in 0..EACH {
        let size = random.pick(sizes);
        let first = random_box(&mut random, size);
        let second = related(&mut random, first, size);
        comparison.pairs += 1;
        let length = 16 + random.below(9);
        let count = comparison.draw(first, second, length).expect("the boxes pass the checks");
        let other = comparison.draw(second, first, 16).expect("the boxes pass the checks");
        assert_eq!(count, other, "the order of the boxes makes no difference");
    }
    comparison.report();
}

#[test]
fn near() {
    pairs("drawing, near boxes, seed 301", 301, &[1, 2, 3, 5, 9]);
}

#[test]
fn wide() {
    pairs("drawing, wide boxes, seed 302", 302, &[100, 10_000, 1 << 24]);
}

#[test]
fn farthest() {
    pairs("drawing, boxes to the ends of the range, seed 303", 303, &[FARTHEST - 1, FARTHEST]);
}
