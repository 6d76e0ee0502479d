//! Boxes in stage units and in the short form: each is exact, and the box is regained from either.

use differential::binary64::hand_out;
use differential::drawing::{random_box, FARTHEST};
use differential::outlines::{outline, tolerance};
use differential::pieces::{degrees, pieces};
use differential::random::Random;
use plain::record_length;

/// Ends of the range, one inside and one beyond, the ends of 32 bits, and small numbers.
const AWKWARD: [i32; 13] = [
    i32::MIN,
    -FARTHEST - 1,
    -FARTHEST,
    1 - FARTHEST,
    -17,
    -1,
    0,
    1,
    16,
    FARTHEST - 1,
    FARTHEST,
    FARTHEST + 1,
    i32::MAX,
];

#[test]
fn every_box_of_awkward_numbers() {
    let mut refused = [0; 4];
    let (mut points, mut others) = (0, 0);
    for (a, b) in AWKWARD.iter().flat_map(|&a| AWKWARD.map(|b| (a, b))) {
        for (c, d) in AWKWARD.iter().flat_map(|&c| AWKWARD.map(|d| (c, d))) {
            match hand_out([a, b, c, d]) {
                Ok((_, short)) if short.len() == 2 => points += 1,
                Ok(_) => others += 1,
                Err((number, spot)) => {
                    assert_eq!(number, 12);
                    refused[spot as usize] += 1;
                }
            }
        }
    }
    assert!(refused.iter().all(|&count| count > 0) && points > 0 && others > 0);
    println!("binary64, boxes of awkward numbers: {points} points, {others} others, refused 12 by spot {refused:?}");
}

#[test]
fn small_boxes() {
    for (a, b) in (-20..=20).flat_map(|a| (-20..=20).map(move |b| (a, b))) {
        for (c, d) in [(0, 0), (-3, -3), (-3, 4), (5, 6), (7, 5)] {
            assert_eq!(hand_out([a, b, c, d]).is_ok(), a <= b && c <= d);
            assert_eq!(hand_out([c, d, a, b]).is_ok(), a <= b && c <= d);
        }
    }
}

#[test]
fn random_boxes() {
    let mut random = Random::new(421);
    for size in [1, 3, 100, 1 << 24, FARTHEST - 1, FARTHEST] {
        for _ in 0..40_000 {
            hand_out(random_box(&mut random, size)).expect("the box passes the checks");
        }
    }
}

/// The boxes of records that banding writes.
#[test]
fn boxes_of_bands() {
    let mut random = Random::new(422);
    let mut boxes = 0;
    for _ in 0..2_000 {
        let m = pieces(&mut random);
        let (outline, tolerance) = (outline(&mut random, degrees(m)), tolerance(&mut random));
        let mut records = vec![0; record_length(m) * 500];
        let Ok(report) = contour_band::band(&outline, tolerance, m, &mut records) else { continue };
        for record in records.chunks_exact(record_length(m)).take(report.leaves as usize) {
            for numbers in record[2..].chunks_exact(4) {
                hand_out(numbers.try_into().expect("there are four")).expect("a record's box passes");
                boxes += 1;
            }
        }
    }
    assert!(boxes > 10_000);
}
