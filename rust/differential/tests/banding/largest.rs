//! Outlines whose curves have the most leaves.

use differential::banding::Answer::{Accepted, Refused};
use differential::banding::Comparison;
use differential::outlines::{deepest, EDGE};
use differential::pieces::{degrees, pieces, settings};
use differential::random::Random;

#[test]
fn the_most_leaves() {
    let seed = 601;
    let mut comparison = Comparison::new("banding, the most leaves, seed 601", seed);
    let mut random = Random::new(seed);
    for (degree, m) in settings().filter(|&(degree, _)| degree >= 3) {
        let mut outline = deepest(&mut random, degree, 64, m);
        comparison.tally.outlines += 1;
        let answer = comparison.band_into_every_length(&outline, 3, m);
        // The leaves of a curve, which is also the first node at the greatest depth.
        let each = if degree == 3 { 256 } else { 16 };
        assert_eq!(answer, Accepted { curves: 64, leaves: 64 * each, nodes: 128 * each - 64 });
        // The last curve alone is too wide: that comes before the list, however short.
        let last = outline.len() - 2 * (degree as usize + 1);
        let y = outline[last + 1];
        let far = if y > 0 { -EDGE } else { EDGE };
        let inner = last + 2..outline.len() - 2;
        outline[inner].iter_mut().skip(1).step_by(2).for_each(|y| *y = far);
        comparison.tally.outlines += 1;
        let answer = comparison.band_into_every_length(&outline, 3, m);
        assert_eq!(answer, Refused(7, 512 * 63 + each));
    }
    comparison.report();
}

#[test]
fn many_leaves_of_every_degree() {
    let seed = 602;
    let mut comparison = Comparison::new("banding, many leaves, seed 602", seed);
    let mut random = Random::new(seed);
    for _ in 0..100 {
        let mut outline = Vec::new();
        let mut near = [random.between(-EDGE, EDGE), random.between(-EDGE, EDGE)];
        if random.one_in(3) {
            near[random.below(2)] = 0;
        }
        let m = pieces(&mut random);
        for _ in 0..random.between(50, 64) {
            let degree = random.between(1, *degrees(m).end());
            // Four halvings fewer make a box 256 times as large.
            let size = random.between(1, if degree <= 3 { 12_000 } else { 12_000 / 256 });
            outline.push(degree);
            outline.extend(near);
            for _ in 0..degree {
                let point = near.map(|z| (z + random.between(-size, size)).clamp(-EDGE, EDGE));
                outline.extend(point);
            }
            near = [outline[outline.len() - 2], outline[outline.len() - 1]];
        }
        comparison.tally.outlines += 1;
        let tolerance = random.between(2, 9);
        comparison.band_into_every_length(&outline, tolerance, m);
    }
    comparison.report();
}
