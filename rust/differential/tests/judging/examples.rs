//! The measured points of document 01, and every point round curve A with every m.

use differential::judging::Answer::{Off, On, Refused};
use differential::judging::{Band, Comparison};
use differential::leaf_lists::FARTHEST;

const CURVE_A: [i32; 9] = [3, 0, 0, 10, 30, 20, 30, 30, 0];

/// The band of curve A.
fn band(tolerance: i32, m: u32) -> Band<'static> {
    Band::new(&CURVE_A, tolerance, m).expect("curve A is accepted")
}

#[test]
fn examples() {
    let mut comparison = Comparison::new("judging, examples");
    let leaves = band(44, 3).records;
    assert_eq!(comparison.judge(&leaves, 3, 240, 363), On { leaf: 0, cover: 1 });
    assert_eq!(comparison.judge(&leaves, 3, 240, 364), Off);
    assert_eq!(comparison.judge(&leaves, 3, FARTHEST, -FARTHEST), Off);
    assert_eq!(comparison.judge(&leaves, 3, FARTHEST + 1, i32::MAX), Refused(11, 0));
    assert_eq!(comparison.judge(&leaves, 3, FARTHEST, i32::MIN), Refused(11, 1));
    assert_eq!(comparison.judge(&[], 3, 240, 363), Refused(9, 0));
    assert_eq!(comparison.judge(&leaves[..17], 3, 240, 363), Refused(9, 17));
    // The rest of a lent list: a node of 0.
    let mut lent = leaves.clone();
    lent.resize(16_380, 0);
    assert_eq!(comparison.judge(&lent, 3, 240, 363), Refused(10, 19));
    comparison.report();
}

#[test]
fn every_point_round_curve_a() {
    let mut comparison = Comparison::new("judging, every point round curve A");
    // One leaf and two, and as many as there can be.
    for (tolerance, m) in
        [(43, 3), (44, 3), (2, 4), (360, 1), (93, 2), (24, 4), (15, 5), (12, 6), (9, 7), (7, 8)]
    {
        let band = band(tolerance, m);
        // With three pieces every point, with others every third column.
        for x in (-6..=486).step_by(if m == 3 { 1 } else { 3 }) {
            for y in -6..=376 {
                comparison.judge_band(&band, x, y);
            }
        }
    }
    comparison.report();
}
