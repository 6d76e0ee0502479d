//! Every fault of two boxes alone, every two faults together at every two places, and short lists.

use differential::drawing::{Comparison, Numbers, FARTHEST};

/// Numbers that are bad wherever they stand, or only beside some others.
const AWKWARD: [i32; 7] = [i32::MIN, i32::MAX, -FARTHEST - 1, FARTHEST + 1, -FARTHEST, FARTHEST, 0];

fn split(numbers: [i32; 8]) -> (Numbers, Numbers) {
    let [a, b, c, d, e, f, g, h] = numbers;
    ([a, b, c, d], [e, f, g, h])
}

#[test]
fn one_or_two_faults() {
    let mut comparison = Comparison::new("drawing, one or two faults at every place", 321);
    for sound in [[-3, 4, -5, 6, -7, 8, -9, 10], [0; 8]] {
        for i in 0..8 {
            for j in 0..8 {
                for p in AWKWARD {
                    for q in AWKWARD {
                        let mut numbers = sound;
                        numbers[i] = p;
                        numbers[j] = q;
                        let (first, second) = split(numbers);
                        comparison.pairs += 1;
                        for length in [0, 15, 16, 20] {
                            let _ = comparison.draw(first, second, length);
                        }
                    }
                }
            }
        }
    }
    // Every spot of 12 was named, and 13.
    assert!(comparison.refused.iter().all(|&count| count > 0));
    comparison.report();
}

#[test]
fn every_short_list() {
    let mut comparison = Comparison::new("drawing, every length of a list", 322);
    for length in 0..40 {
        comparison.pairs += 1;
        let (first, second) = split([0, 1, 0, 1, 3, 4, 3, 4]);
        let answer = comparison.draw(first, second, length);
        assert_eq!(answer, if length < 16 { Err((13, length as u64)) } else { Ok(6) });
    }
    comparison.report();
}
