//! Refusals: the same as banding's before the walk, in the same order, but for that of a tolerance.

use differential::outlines::{damage, outline, AWKWARD};
use differential::pieces::{degrees, pieces, WRONG};
use differential::random::Random;
use differential::tightest::Answer::Refused;
use differential::tightest::Comparison;

#[test]
fn random() {
    let seed = 1441;
    let mut comparison = Comparison::new("tightest band, damaged outlines, seed 1441");
    let mut random = Random::new(seed);
    for _ in 0..30_000 {
        let mut m = pieces(&mut random);
        let (mut outline, mut unused) = (outline(&mut random, degrees(m)), 2);
        damage(&mut random, &mut outline, &mut unused, &mut m);
        let leaves = random.below(300);
        comparison.tightest(&outline, m, leaves);
    }
    let refused = &comparison.tally.refused;
    assert!((2..=6).chain([17, 18, 20]).all(|number| refused[number] > 10), "{refused}");
    assert!([1, 7, 8, 19].iter().all(|&number| refused[number] == 0), "{refused}");
    comparison.report();
}

/// Awkward numbers at every place, every length of an outline, m out of range.
#[test]
fn every_place() {
    let mut comparison = Comparison::new("tightest band, every place");
    let whole = [2, 0, 0, 8, 9, 5, 5, 1, 5, 5, 7, 7, 4, 7, 7, 1, 2, 3, 4, 5, 6, 0, 0];
    for m in [1, 3, 8] {
        for at in 0..whole.len() {
            comparison.tightest(&whole[..at], m, 9);
            for number in AWKWARD {
                let mut outline = whole;
                outline[at] = number;
                comparison.tightest(&outline, m, 9);
            }
        }
    }
    for m in WRONG {
        for outline in [&whole[..], &[]] {
            assert_eq!(comparison.tightest(outline, m, 9), Refused(18, 0));
        }
    }
    comparison.report();
}
