//! Both ends of the span, and both sides of every tolerance at which a band begins to fit.

use differential::outlines::{deepest, MOST_CURVES};
use differential::random::Random;
use differential::tightest::Answer::{Least, Nothing, Refused};
use differential::tightest::{leaves_at, Comparison, Tally, LEAST, WIDEST};

/// A bow of degree 3 that is so high.
fn bow(height: i32) -> [i32; 9] {
    [3, 0, 0, 0, height, 0, height, 0, 0]
}

/// Bows with one piece, whose boxes are twelve times as high as their second difference: the last that is one leaf at the
/// largest tolerance, and the first that is not.
#[test]
fn the_largest_tolerance() {
    let mut comparison = Comparison::new("tightest band, the largest tolerance");
    let mut last = 0;
    for height in 87_000..=87_400 {
        match comparison.tightest(&bow(height), 1, 1) {
            Least(tolerance) => {
                assert!(last < tolerance, "{height}");
                last = tolerance;
            }
            Nothing => assert_eq!(leaves_at(&bow(height), WIDEST, 1), Ok(2)),
            refused => panic!("{refused:?}"),
        }
        assert!(matches!(comparison.tightest(&bow(height), 1, 2), Least(_)));
    }
    assert!(last > WIDEST - 12 && comparison.tally.nothing > 10, "{last} {}", comparison.tally);
    comparison.report();
}

/// Outlines that fit at 2, and others that 7 keeps from it.
#[test]
fn the_least_tolerance() {
    let mut comparison = Comparison::new("tightest band, the least tolerance");
    for m in 1..=8 {
        for x in 0..40 {
            for height in 0..40 {
                let outline = [2, 0, 0, 100 * x, 2_000 * height, 0, 0];
                let answer = comparison.tightest(&outline, m, usize::MAX);
                assert_eq!(answer == Least(LEAST), leaves_at(&outline, LEAST, m).is_ok());
            }
        }
    }
    let Tally { answers, at_two, .. } = comparison.tally;
    assert!(at_two > 500 && answers - at_two > 500, "{at_two} of {answers}");
    comparison.report();
}

/// Every leaf at the greatest depth at T 3: as many leaves as there can be, and one fewer.
#[test]
fn the_most_leaves() {
    let seed = 1412;
    let mut comparison = Comparison::new("tightest band, the most leaves, seed 1412");
    let mut random = Random::new(seed);
    for (degree, deepest_leaves) in [(3, 256), (4, 16), (5, 16)] {
        for m in 3..=8 {
            let outline = deepest(&mut random, degree, 4, m);
            let most = 4 * deepest_leaves;
            assert_eq!(leaves_at(&outline, 3, m), Ok(most));
            let Least(all) = comparison.tightest(&outline, m, most) else { panic!("{degree} {m}") };
            assert_eq!(comparison.tightest(&outline, m, usize::MAX), Least(all));
            let Least(fewer) = comparison.tightest(&outline, m, most - 1) else { panic!("{degree} {m}") };
            assert!(all <= 3 && fewer > 3, "{degree} {m} {all} {fewer}");
        }
    }
    comparison.report();
}

/// 4,095 and 4,096 curves, and one too many.
#[test]
fn most_curves() {
    let mut comparison = Comparison::new("tightest band, the most curves");
    for m in 1..=8 {
        let mut outline = [2, 0, 0, 0, 40, 0, 0].repeat(MOST_CURVES - 1);
        for curves in [MOST_CURVES - 1, MOST_CURVES] {
            let one = comparison.tightest(&outline[..7], m, 1);
            assert_eq!(comparison.tightest(&outline, m, curves), one);
            assert_eq!(comparison.tightest(&outline, m, curves - 1), Nothing);
            assert!(comparison.tightest(&outline, m, 2 * curves) != one);
            outline.extend([2, 0, 0, 0, 40, 0, 0]);
        }
        assert_eq!(comparison.tightest(&outline, m, usize::MAX), Refused(5, 7 * MOST_CURVES as u64));
    }
    comparison.report();
}
