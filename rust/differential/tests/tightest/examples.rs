//! Tolerances worked out by hand, the same from both engines.

use differential::tightest::Answer::{Least, Nothing, Refused};
use differential::tightest::Comparison;

/// Curve A of document 01, and its chord.
const BOW: [i32; 14] = [3, 0, 0, 10, 30, 20, 30, 30, 0, 1, 30, 0, 0, 0];

#[test]
fn curve_a_and_its_chord() {
    let mut comparison = Comparison::new("tightest band, examples");
    // One leaf from T 44 on: the boxes at the thirds are 44 high and of no width.
    assert_eq!(comparison.by_trial(&BOW[..9], 3, 1), Least(44));
    assert_eq!(comparison.by_trial(&BOW, 3, 2), Least(44));
    assert_eq!(comparison.tightest(&BOW, 3, 1), Nothing);
    assert_eq!(comparison.tightest(&BOW, 3, 0), Nothing);
    assert_eq!(comparison.tightest(&BOW[..13], 3, 2), Refused(3, 13));
}

/// The more leaves are taken, the tighter is the band, until every node is as small as it can be.
#[test]
fn every_number_of_leaves() {
    let mut comparison = Comparison::new("tightest band, every number of leaves");
    for m in 1..=8 {
        let mut last = i32::MAX;
        for leaves in 1..=260 {
            let Least(tolerance) = comparison.by_trial(&BOW[..9], m, leaves) else { panic!("{m} {leaves}") };
            assert!(tolerance <= last);
            last = tolerance;
        }
        assert!(last < 10, "{m} {last}");
    }
    comparison.report();
}

/// A line is one leaf at every tolerance.
#[test]
fn lines() {
    let mut comparison = Comparison::new("tightest band, lines");
    for m in 1..=8 {
        for line in [[1, 0, 0, 0, 1], [1, 7, 7, 7, 7], [1, -1_048_576, 1_048_576, 1_048_576, -1_048_576]] {
            for (leaves, answer) in [(0, Nothing), (1, Least(2)), (2, Least(2)), (usize::MAX, Least(2))] {
                assert_eq!(comparison.tightest(&line, m, leaves), answer);
            }
        }
    }
}
