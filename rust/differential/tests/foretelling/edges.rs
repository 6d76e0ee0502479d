//! The edge of the premise: for every degree and m, at the least tolerance for each depth, one below it and one above it.

use differential::foretelling::Answer::Told;
use differential::foretelling::Comparison;
use differential::outlines::EDGE;
use differential::pieces::settings;
use differential::random::Random;

/// G of `docs/ROWS.md`, by degree from 1, then by m from 1.
const GAPS: [[i128; 8]; 5] = [
    [0; 8],
    [2_500, 625, 278, 157, 100, 71, 52, 40],
    [7_500, 1_944, 890, 477, 303, 211, 155, 120],
    [0, 0, 1_729, 964, 611, 425, 312, 239],
    [0, 0, 2_955, 1_622, 1_031, 711, 521, 399],
];

/// The largest tolerance that is taken.
const WIDEST: i32 = 1_048_576;

/// The greatest depth of a degree.
fn deepest(degree: i32) -> u32 {
    if degree <= 3 {
        8
    } else {
        4
    }
}

/// Whether j meets the premise, in squares.
fn meets(degree: i32, m: u32, largest: i128, tolerance: i32, j: u32) -> bool {
    let gap = GAPS[degree as usize - 1][m as usize - 1];
    let bends = 16 * gap * largest + 20_000 * 4_i128.pow(j);
    2 * bends.pow(2) <= (10_000 * i128::from(tolerance) * 4_i128.pow(j)).pow(2)
}

/// The least tolerance at which j meets the premise, if one that is taken does.
fn least_tolerance(degree: i32, m: u32, largest: i128, j: u32) -> Option<i32> {
    let (mut low, mut high) = (2, WIDEST + 1);
    while low < high {
        let middle = low + (high - low) / 2;
        if meets(degree, m, largest, middle, j) {
            high = middle;
        } else {
            low = middle + 1;
        }
    }
    (low <= WIDEST).then_some(low)
}

/// A curve of a degree whose second differences are 0 but for one, at a place and in a coordinate: two straight parts
/// that meet there.
fn bent(degree: i32, difference: i32, place: i32, upright: bool) -> Vec<i32> {
    let points = (0..=degree).flat_map(|j| {
        let value = difference * (j - place - 1).max(0);
        if upright {
            [7, value]
        } else {
            [value, 7]
        }
    });
    [degree].into_iter().chain(points).collect()
}

/// M of a curve, from its numbers.
fn largest(curve: &[i32]) -> i128 {
    let coordinate = |first: usize| -> i128 {
        let values: Vec<i128> = curve[1 + first..].iter().step_by(2).map(|&c| c.into()).collect();
        values.windows(3).map(|c| (c[0] - 2 * c[1] + c[2]).abs()).max().unwrap_or(0)
    };
    coordinate(0).max(coordinate(1))
}

/// Compares at a tolerance, and checks the depth against the premise in squares.
fn at(comparison: &mut Comparison, curve: &[i32], tolerance: i32, m: u32) {
    let degree = curve[0];
    let expected = (0..=deepest(degree)).find(|&j| meets(degree, m, largest(curve), tolerance, j));
    let answer = comparison.against_the_band(curve, tolerance, m);
    assert_eq!(comparison.depths(), [expected.map_or(-1, |j| j as i32)]);
    let (leaves, nodes) = expected.map_or((0, 0), |j| (1 << j, (2 << j) - 1));
    assert_eq!(answer, Told { leaves, nodes });
}

/// Both sides of every tolerance at which a depth begins to do, and both ends of the tolerances.
fn about_each_depth(comparison: &mut Comparison, curve: &[i32], m: u32) {
    let degree = curve[0];
    for j in 0..=deepest(degree) {
        if let Some(least) = least_tolerance(degree, m, largest(curve), j) {
            for tolerance in [least - 1, least, least + 1] {
                if (2..=WIDEST).contains(&tolerance) {
                    at(comparison, curve, tolerance, m);
                }
            }
        }
    }
    at(comparison, curve, 2, m);
    at(comparison, curve, WIDEST, m);
}

#[test]
fn every_degree_with_every_m() {
    let seed = 901;
    let mut comparison = Comparison::new("foretelling, edges of the premise, seed 901", seed);
    let mut random = Random::new(seed);
    for (degree, m) in settings() {
        for _ in 0..60 {
            let size = random.magnitude();
            let points: Vec<i32> = (0..2 * degree + 2).map(|_| random.between(-size, size)).collect();
            about_each_depth(&mut comparison, &[&[degree], &points[..]].concat(), m);
        }
    }
    assert!(comparison.tally.told.iter().all(|&told| told > 1_000));
    assert!(comparison.tally.depths.iter().all(|&depths| depths > 200));
    comparison.report();
}

/// One second difference alone, in x or in y, at each place and of either sign.
#[test]
fn one_difference_alone() {
    let mut comparison = Comparison::new("foretelling, one second difference", 902);
    for (degree, m) in settings().filter(|&(degree, _)| degree > 1) {
        for (place, upright) in (0..degree - 1).flat_map(|place| [(place, false), (place, true)]) {
            for size in [1, 2, 3, 5, 1_000, 65_537, EDGE / 4] {
                for difference in [size, -size] {
                    let curve = bent(degree, difference, place, upright);
                    assert_eq!(largest(&curve), i128::from(size));
                    about_each_depth(&mut comparison, &curve, m);
                }
            }
        }
    }
    comparison.report();
}

/// M 0: points on a line, evenly apart, and all the same.
#[test]
fn no_difference() {
    let mut comparison = Comparison::new("foretelling, no second difference", 903);
    for (degree, m) in settings() {
        for (u, v) in [(0, 0), (1, 0), (0, -1), (3, 4), (EDGE / 5, -EDGE / 5)] {
            let points = (0..=degree).flat_map(|j| [j * u, j * v]);
            let curve: Vec<i32> = [degree].into_iter().chain(points).collect();
            for tolerance in [2, 3, 4, 16, WIDEST - 1, WIDEST] {
                at(&mut comparison, &curve, tolerance, m);
            }
        }
    }
    comparison.report();
}

/// The largest M: control values at both ends of their range by turns.
#[test]
fn the_largest_difference() {
    let mut comparison = Comparison::new("foretelling, the largest second difference", 904);
    for (degree, m) in settings() {
        for sign in [EDGE, -EDGE] {
            let points = (0..=degree).flat_map(|j| [if j % 2 == 0 { sign } else { -sign }, 0]);
            let curve: Vec<i32> = [degree].into_iter().chain(points).collect();
            about_each_depth(&mut comparison, &curve, m);
        }
    }
    comparison.report();
}
