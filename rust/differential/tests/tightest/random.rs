//! Random outlines, with numbers of leaves about the curves, about those of some band, and anywhere.

use differential::outlines::{outline, starts, tolerance};
use differential::pieces::{degrees, pieces};
use differential::random::Random;
use differential::tightest::Answer::Nothing;
use differential::tightest::{leaves_at, Comparison};

#[test]
fn whole() {
    let seed = 1421;
    let mut comparison = Comparison::new("tightest band, random outlines, seed 1421");
    let mut random = Random::new(seed);
    for _ in 0..4_000 {
        let m = pieces(&mut random);
        let outline = outline(&mut random, degrees(m));
        let curves = starts(&outline).len();
        assert_eq!(comparison.tightest(&outline, m, 0), Nothing);
        assert_eq!(comparison.tightest(&outline, m, curves - 1), Nothing);
        for leaves in [1, curves, curves + 1, random.below(256 * curves), usize::MAX] {
            comparison.tightest(&outline, m, leaves);
        }
        if let Ok(leaves) = leaves_at(&outline, tolerance(&mut random), m) {
            for leaves in leaves - 1..=leaves + 1 {
                comparison.tightest(&outline, m, leaves);
            }
        }
    }
    assert!(comparison.tally.least.iter().all(|&least| least > 1_000) && comparison.tally.nothing > 8_000);
    comparison.report();
}
