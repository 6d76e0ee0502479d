//! Check 23: counts of every kind, records altered in each place, records of another band, lists of every length.

use differential::banding::Answer::{Accepted, Refused};
use differential::exchanging::{records_of, Comparison, Exchange};

/// A line, a bow with some leaves, and a line back to where the first begins.
const OUTLINE: [i32; 17] = [1, 0, 0, 30, 0, 2, 30, 0, 50, 90, 0, 60, 1, 0, 60, 0, 0];

/// A bow with more leaves, one with fewer, and one with as many, each in the place of the bow.
const HIGHER: [i32; 13] = [2, 30, 0, 50, 400, 0, 60, 1, 2, 3, 4, 5, 6];
const LOWER: [i32; 13] = [1, 30, 0, 0, 60, 9, 9, 9, 9, 9, 9, 9, 9];
const OTHER: [i32; 13] = [2, 30, 0, 50, 91, 0, 60, 6, 5, 4, 3, 2, 1];

const T: i32 = 25;

/// What exchanging the bow is given, with its records in front of a list that is long enough.
fn exchange(m: u32, curve: [i32; 13]) -> (Exchange, Vec<i32>) {
    let mut list = records_of(&OUTLINE, T, m).expect("it is accepted");
    let given = list.len();
    list.extend((0..40 * given as i32).map(|i| 1_000_000 + i));
    (Exchange { outline: OUTLINE.to_vec(), tolerance: T, m, number: 1, curve, given }, list)
}

#[test]
fn every_count_and_every_length() {
    let mut comparison = Comparison::new("exchanging, every count and every length");
    for m in 1..=8 {
        for curve in [HIGHER, LOWER, OTHER] {
            let (mut input, list) = exchange(m, curve);
            let own = input.given;
            let counts =
                (0..own + 20).chain([list.len() - 1, list.len(), list.len() + 1, 1 << 32, usize::MAX]);
            for given in counts {
                input.given = given;
                let answer = comparison.exchange(&input, &list);
                if given == own {
                    assert!(matches!(answer, Accepted { .. }), "{answer:?}");
                } else {
                    assert_eq!(answer, Refused(23, given.min(own) as u64));
                }
            }
            for length in 0..own {
                for given in [0, length, length + 1, own, usize::MAX] {
                    input.given = given;
                    let spot = length.min(given) as u64;
                    assert_eq!(comparison.exchange(&input, &list[..length]), Refused(23, spot));
                }
            }
        }
    }
    comparison.report();
}

/// Each number altered alone, and with another after it; what stands past the records is not looked at.
#[test]
fn altered_in_each_place() {
    let mut comparison = Comparison::new("exchanging, records altered in each place");
    for m in 1..=8 {
        for curve in [HIGHER, LOWER, OTHER, [6; 13]] {
            let (input, list) = exchange(m, curve);
            for at in 0..input.given {
                let mut altered = list.clone();
                for (with, by) in [(at, 1), (at, i32::MIN), (input.given - 1, 1), (input.given, 1)] {
                    altered[with] = altered[with].wrapping_add(by);
                    assert_eq!(comparison.exchange(&input, &altered), Refused(23, at as u64));
                }
                // A shorter count ends before it or after it.
                let mut fewer = input.clone();
                for given in [at, at + 1] {
                    fewer.given = given;
                    assert_eq!(comparison.exchange(&fewer, &altered), Refused(23, at as u64));
                }
            }
            let mut altered = list.clone();
            altered[input.given] ^= 1;
            let answer = comparison.exchange(&input, &altered);
            assert_eq!(matches!(answer, Accepted { .. }), curve != [6; 13], "{answer:?}");
        }
    }
    comparison.report();
}

/// Records of the changed outline, of another tolerance, with other pieces, and of the outline from another curve on.
#[test]
fn of_another_band() {
    let mut comparison = Comparison::new("exchanging, records of another band");
    for m in 1..=8 {
        let (mut input, list) = exchange(m, HIGHER);
        let own = &list[..input.given];
        let others = [
            records_of(&input.changed(), T, m),
            records_of(&OUTLINE, T + 20, m),
            records_of(&OUTLINE, T, m % 8 + 1),
            records_of(&OUTLINE[5..], T, m),
        ];
        for other in others {
            let other = other.expect("it is accepted");
            if other == own {
                continue;
            }
            let shorter = other.len().min(own.len());
            let spot = (0..shorter).find(|&i| other[i] != own[i]).unwrap_or(shorter);
            input.given = other.len();
            assert_eq!(comparison.exchange(&input, &other), Refused(23, spot as u64));
        }
    }
    comparison.report();
}
