//! Depths worked out by hand, the same from both engines.

use differential::foretelling::Answer::{Refused, Told};
use differential::foretelling::Comparison;

/// Curve A of document 01, whose largest second difference is 30, and its chord.
const BOW: [i32; 14] = [3, 0, 0, 10, 30, 20, 30, 30, 0, 1, 30, 0, 0, 0];

#[test]
fn curve_a_and_its_chord() {
    let mut comparison = Comparison::new("foretelling, examples", 1);
    // G is 890, so j 1 is the least with 1.414 × (427200 + 20000 × 4^j) ≤ 10000 × T × 4^j at T 44, and j 0 from T 64 on.
    for (tolerance, depths, leaves, nodes) in
        [(2, [-1, -1], 0, 0), (44, [1, 0], 3, 4), (63, [1, 0], 3, 4), (64, [0, 0], 2, 2)]
    {
        assert_eq!(comparison.against_the_band(&BOW, tolerance, 3), Told { leaves, nodes });
        assert_eq!(comparison.depths(), depths);
    }
    assert_eq!(comparison.foretell(&BOW, 44, 3, 1), Refused(8, 2));
}

/// A line has depth 0 from a tolerance of 3 on and none at 2, although banding accepts it there.
#[test]
fn lines() {
    let mut comparison = Comparison::new("foretelling, lines", 2);
    for m in 1..=8 {
        for line in [[1, 0, 0, 0, 1], [1, 7, 7, 7, 7], [1, -1_048_576, 1_048_576, 1_048_576, -1_048_576]] {
            assert_eq!(comparison.against_the_band(&line, 2, m), Told { leaves: 0, nodes: 0 });
            assert_eq!(comparison.depths(), [-1]);
            assert!(contour_band::band(&line, 2, m, &mut [0; 38]).is_ok_and(|report| report.leaves == 1));
            for tolerance in [3, 44, 1_048_576] {
                assert_eq!(comparison.against_the_band(&line, tolerance, m), Told { leaves: 1, nodes: 1 });
            }
        }
    }
}
