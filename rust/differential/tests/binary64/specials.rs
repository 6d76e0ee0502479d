//! Numbers in binary64 that a check must not mistake, in every place of small outlines, one and two at a time.

use differential::banding::Answer::{Accepted, Refused};
use differential::banding::Comparison;
use differential::binary64::specials;
use differential::random::Random;

/// Two lines, the second from where the first ends.
const LINES: [f64; 10] = [1.0, 5.0, -7.0, 0.0, 3.0, 1.0, 0.0, 3.0, 2.0, 2.0];

/// A line and a curve of degree 2.
const MIXED: [f64; 12] = [1.0, 5.0, -7.0, 0.0, 3.0, 2.0, 0.0, 3.0, 40.0, 30.0, 9.0, 0.0];

/// A curve of degree 5, which takes three pieces or more.
const QUINTIC: [f64; 13] = [5.0, 0.0, 0.0, 2.0, 4.0, 4.0, 6.0, 6.0, 6.0, 8.0, 4.0, 10.0, 0.0];

/// What is said of one number by itself, by f64's own methods, in a coordinate's place.
fn fault(number: f64) -> Option<u32> {
    if !number.is_finite() || number.fract() != 0.0 {
        return Some(21);
    }
    (number.abs() > 1_048_576.0).then_some(4)
}

#[test]
fn one_in_every_place() {
    let mut comparison = Comparison::new("binary64, a special number in every place", 401);
    for outline in [&LINES[..], &MIXED, &QUINTIC] {
        for place in 0..outline.len() {
            for special in specials() {
                let mut outline = outline.to_vec();
                outline[place] = special;
                comparison.tally.outlines += 1;
                for (m, length) in [(1, 100), (3, 0), (3, 5_000), (9, 100)] {
                    comparison.band_binary64(&outline, 44, m, length);
                }
                // The coordinates of the first curve, by what f64 says of them.
                if (1..5).contains(&place) && outline.len() < 13 {
                    let answer = comparison.band_binary64(&outline, 44, 3, 5_000);
                    match fault(special) {
                        Some(number) => assert_eq!(answer, Refused(number, place as u64)),
                        None => {
                            assert!(matches!(answer, Accepted { .. } | Refused(17, 5) | Refused(7 | 8, _)))
                        }
                    }
                }
            }
        }
    }
    let tally = &comparison.tally;
    assert!([2, 3, 4, 8, 17, 18, 20, 21].iter().all(|&number| tally.refused[number] > 0));
    assert!(tally.accepted[0] > 0 && tally.accepted[2] > 0);
    comparison.report();
}

#[test]
fn two_in_every_two_places() {
    let mut comparison = Comparison::new("binary64, two special numbers in every two places", 402);
    let specials = specials();
    for (i, j) in (0..MIXED.len()).flat_map(|i| (i + 1..MIXED.len()).map(move |j| (i, j))) {
        for (a, b) in specials.iter().flat_map(|&a| specials.iter().map(move |&b| (a, b))) {
            let mut outline = MIXED;
            outline[i] = a;
            outline[j] = b;
            comparison.tally.outlines += 1;
            comparison.band_binary64(&outline, 16, 3, 40);
        }
    }
    assert!([2, 3, 4, 7, 8, 17, 21].iter().all(|&number| comparison.tally.refused[number] > 0));
    assert!(comparison.tally.accepted[2] > 0);
    comparison.report();
}

#[test]
fn the_first_faulty_coordinate_decides() {
    let mut comparison = Comparison::new("binary64, the first faulty coordinate", 403);
    let faulty: Vec<(f64, u32)> =
        specials().into_iter().filter_map(|special| fault(special).map(|number| (special, number))).collect();
    for (i, j) in (1..5).flat_map(|i| (i + 1..5).map(move |j| (i, j))) {
        for (&(a, number), &(b, _)) in faulty.iter().flat_map(|a| faulty.iter().map(move |b| (a, b))) {
            let mut outline = LINES;
            outline[i] = a;
            outline[j] = b;
            comparison.tally.outlines += 1;
            assert_eq!(comparison.band_binary64(&outline, 44, 3, 36), Refused(number, i as u64));
        }
    }
    comparison.report();
}

/// Lists of special numbers and degrees alone.
#[test]
fn nothing_but_specials() {
    let mut comparison = Comparison::new("binary64, lists of special numbers, seed 404", 404);
    let mut random = Random::new(404);
    let specials = specials();
    for _ in 0..100_000 {
        let length = random.below(16);
        let mut outline: Vec<f64> = (0..length).map(|_| random.pick(&specials)).collect();
        if length > 0 && !random.one_in(4) {
            outline[0] = random.pick(&[1.0, 2.0, 3.0, 4.0, 5.0]);
        }
        let (tolerance, m) = (random.pick(&[1, 2, 44, 1_048_576]), random.pick(&[0, 1, 2, 3, 8, 9]));
        comparison.tally.outlines += 1;
        comparison.band_binary64(&outline, tolerance, m, 60);
    }
    let tally = &comparison.tally;
    assert!([1, 2, 3, 4, 6, 18, 20, 21].iter().all(|&number| tally.refused[number] > 0));
    comparison.report();
}
