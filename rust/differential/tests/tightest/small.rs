//! Outlines with small coordinates, by a trial of every tolerance.

use differential::pieces::settings;
use differential::random::Random;
use differential::tightest::Answer::Nothing;
use differential::tightest::Comparison;

/// One to three curves of a degree with coordinates from −`size` to `size`, each from where the one before ends.
fn small(random: &mut Random, degree: i32, size: i32) -> Vec<i32> {
    let mut outline: Vec<i32> = Vec::new();
    for _ in 0..random.between(1, 3) {
        let points: Vec<i32> = (0..2 * degree + 2).map(|_| random.between(-size, size)).collect();
        let start = outline.len();
        outline.push(degree);
        outline.extend(points);
        if let Some(end) = start.checked_sub(2) {
            outline.copy_within(end..start, start + 1);
        }
    }
    outline
}

#[test]
fn every_degree_with_every_m() {
    let seed = 1401;
    let mut comparison = Comparison::new("tightest band, small coordinates, seed 1401");
    let mut random = Random::new(seed);
    for (degree, m) in settings() {
        let length = 2 * degree as usize + 3;
        for round in 0..200 {
            let size = [1, 2, 3, 8, 20][round % 5];
            let outline = small(&mut random, degree, size);
            let curves = outline.len() / length;
            for leaves in [curves, curves + 1, 2 * curves, 3 * curves + 1, 16 * curves, usize::MAX] {
                comparison.by_trial(&outline, m, leaves);
            }
            assert_eq!(comparison.tightest(&outline, m, curves - 1), Nothing);
            assert_eq!(comparison.tightest(&outline, m, 0), Nothing);
        }
    }
    assert!(comparison.tally.at_two > 1_000 && comparison.tally.least.iter().all(|&least| least > 2_000));
    comparison.report();
}

/// Where nothing fits, every one of a million tolerances fails.
#[test]
fn nothing_by_trial() {
    let mut comparison = Comparison::new("tightest band, nothing by trial");
    for (m, outline) in
        [(1, &[1, 0, 0, 5, 5][..]), (3, &[3, 0, 0, 10, 30, 20, 30, 30, 0]), (8, &[2, 0, 0, 9, 9, 0, 9])]
    {
        assert_eq!(comparison.by_trial(outline, m, 0), Nothing);
    }
    // Two leaves at the largest tolerance.
    assert_eq!(comparison.by_trial(&[3, 0, 0, 0, 90_000, 0, 90_000, 0, 0], 1, 1), Nothing);
    comparison.report();
}
