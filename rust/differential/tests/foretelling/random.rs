//! Random outlines, whole ones with their bands as well, and the most curves.

use differential::foretelling::Answer::{Refused, Told};
use differential::foretelling::Comparison;
use differential::outlines::{outline, tolerance, MOST_CURVES};
use differential::pieces::{degrees, pieces};
use differential::random::Random;

#[test]
fn whole() {
    let seed = 911;
    let mut comparison = Comparison::new("foretelling, random outlines, seed 911", seed);
    let mut random = Random::new(seed);
    for _ in 0..60_000 {
        let m = pieces(&mut random);
        let outline = outline(&mut random, degrees(m));
        comparison.against_the_band(&outline, tolerance(&mut random), m);
    }
    assert!(comparison.tally.told.iter().all(|&told| told > 2_000));
    assert!(comparison.tally.none > 10_000 && comparison.tally.depths.iter().all(|&depths| depths > 2_000));
    comparison.report();
}

/// 4,095 and 4,096 curves of mixed depths, and one too many.
#[test]
fn most_curves() {
    let seed = 912;
    let mut comparison = Comparison::new("foretelling, the most curves, seed 912", seed);
    let mut random = Random::new(seed);
    for m in 1..=8 {
        let mut outline = Vec::new();
        let mut leaves = 0;
        for k in 0..MOST_CURVES {
            // A bow of degree 2 from a point to itself, the higher the later it comes.
            outline.extend([2, 0, 0, 0, 40 * k as i32, 0, 0]);
            if k + 2 >= MOST_CURVES {
                let told = comparison.into_every_length(&outline, 800, m);
                let Told { leaves: more, nodes } = told else { panic!("{told:?}") };
                assert_eq!(nodes + k as u64 + 1, 2 * more);
                assert!(more > leaves);
                leaves = more;
            }
        }
        outline.extend([1, 0, 0, 0, 0]);
        let index = 7 * MOST_CURVES as u64;
        assert_eq!(comparison.into_every_length(&outline, 800, m), Refused(5, index));
        outline[random.below(index as usize)] = i32::MIN;
        assert_ne!(comparison.into_every_length(&outline, 800, m), Refused(5, index));
    }
    comparison.report();
}
