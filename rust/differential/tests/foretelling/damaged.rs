//! Refusals: the same as banding's before the walk, in the same order, and after them 8.

use differential::foretelling::Answer::Refused;
use differential::foretelling::Comparison;
use differential::outlines::{damage, outline, tolerance, AWKWARD};
use differential::pieces::{degrees, pieces, WRONG};
use differential::random::Random;

#[test]
fn random() {
    let seed = 921;
    let mut comparison = Comparison::new("foretelling, damaged outlines, seed 921", seed);
    let mut random = Random::new(seed);
    for _ in 0..60_000 {
        let mut m = pieces(&mut random);
        let (mut outline, mut tolerance) = (outline(&mut random, degrees(m)), tolerance(&mut random));
        damage(&mut random, &mut outline, &mut tolerance, &mut m);
        comparison.against_the_band(&outline, tolerance, m);
    }
    let refused = &comparison.tally.refused;
    assert!((1..=6).chain([8, 17, 18, 20]).all(|number| refused[number] > 50), "{refused}");
    assert!([7, 9, 19].iter().all(|&number| refused[number] == 0), "{refused}");
    comparison.report();
}

/// Awkward numbers at every place, every length of an outline and of a list, m and the tolerance out of range.
#[test]
fn every_place() {
    let mut comparison = Comparison::new("foretelling, every place", 922);
    let whole = [2, 0, 0, 8, 9, 5, 5, 1, 5, 5, 7, 7, 4, 7, 7, 1, 2, 3, 4, 5, 6, 0, 0];
    for m in [1, 3, 8] {
        for at in 0..whole.len() {
            comparison.against_the_band(&whole[..at], 9, m);
            for number in AWKWARD {
                let mut outline = whole;
                outline[at] = number;
                comparison.against_the_band(&outline, 9, m);
            }
        }
        for tolerance in AWKWARD {
            comparison.against_the_band(&whole, tolerance, m);
        }
    }
    for m in WRONG {
        for (outline, tolerance) in [(&whole[..], 9), (&[], 9), (&whole[..], 1), (&[], 1)] {
            assert_eq!(comparison.into_every_length(outline, tolerance, m), Refused(18, 0));
        }
    }
    for length in 0..8 {
        let answer = comparison.foretell(&whole, 9, 3, length);
        assert_eq!(answer == Refused(8, 3), length < 3);
        assert_eq!(comparison.foretell(&whole[..22], 9, 3, length), Refused(3, 22));
    }
    comparison.report();
}
