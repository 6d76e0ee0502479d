//! Banding and judging in one call, against one after the other.

use differential::judging::{Answer, Band};
use differential::leaf_lists::{LeafList, AWKWARD, FARTHEST};
use differential::outlines::{self, outline, tolerance};
use differential::pieces::{degrees, pieces, WRONG};
use differential::random::Random;
use differential::together::{Comparison, Outcome};
use plain::record_length;

const CURVE_A: [i32; 9] = [3, 0, 0, 10, 30, 20, 30, 30, 0];
const QUARTIC: [i32; 11] = [4, 0, 0, 210, 30, 420, 40, 630, 30, 840, 0];

#[test]
fn examples() {
    let mut comparison = Comparison::new("judging, together with banding, examples", 741);
    let on = Answer::On { leaf: 0, cover: 1 };
    let report = [1, 1, 1];
    for length in [18, 19, 36, 16_380] {
        let mut call = |x, y| comparison.band_and_judge(&CURVE_A, 44, 3, length, x, y);
        assert_eq!(call(240, 363), Outcome::Banded(report, on));
        assert_eq!(call(240, 364), Outcome::Banded(report, Answer::Off));
        assert_eq!(call(FARTHEST + 1, i32::MAX), Outcome::Refused(11, 0));
        assert_eq!(call(0, -FARTHEST - 1), Outcome::Refused(11, 1));
    }
    comparison.report();
}

/// Every refusal of banding, and none, with points on either side of both ends of their range: banding's
/// refusals come before the point's, and each leaves the list as it was.
#[test]
fn orders() {
    const STEEP: [i32; 9] = [3, 0, 0, 0, 1_048_576, 0, 1_048_576, 0, 0];
    const STEEP_QUARTIC: [i32; 11] = [4, 0, 0, 0, 1_048_576, 0, 1_048_576, 0, 1_048_576, 0, 0];
    const ENDS: [i32; 7] = [i32::MIN, -FARTHEST - 1, -FARTHEST, 0, FARTHEST, FARTHEST + 1, i32::MAX];
    let many = [1, 0, 0, 0, 0].repeat(4_097);
    let apart = [1, 0, 0, 0, 1].repeat(2);
    let calls: [(&[i32], i32, u32, usize, Option<(u32, u64)>); 24] = [
        (&CURVE_A, 44, 0, 18, Some((18, 0))),
        (&CURVE_A, 1, 9, 18, Some((18, 0))),
        (&[], 44, u32::MAX, 0, Some((18, 0))),
        (&CURVE_A, 1, 3, 18, Some((1, 0))),
        (&[], 44, 3, 18, Some((6, 0))),
        (&many, 44, 3, 18, Some((5, 20_480))),
        (&[6], 44, 3, 18, Some((2, 0))),
        (&QUARTIC, 44, 2, 18, Some((20, 0))),
        (&[5], 44, 1, 18, Some((20, 0))),
        (&[5], 44, 3, 18, Some((3, 1))),
        (&CURVE_A[..8], 44, 3, 18, Some((3, 8))),
        (&[1, 0, 0, 1_048_577, 0], 44, 3, 18, Some((4, 3))),
        (&apart, 44, 3, 18, Some((17, 5))),
        (&STEEP, 2, 3, 18, Some((7, 256))),
        (&STEEP, 2, 3, 0, Some((7, 256))),
        (&STEEP_QUARTIC, 2, 3, 18, Some((7, 16))),
        (&CURVE_A, 43, 3, 0, Some((8, 2))),
        (&CURVE_A, 43, 3, 35, Some((8, 2))),
        (&CURVE_A, 43, 3, 36, None),
        (&CURVE_A, 43, 3, 54, None),
        (&CURVE_A, 359, 1, 20, None),
        (&CURVE_A, 6, 8, 76, None),
        (&QUARTIC, 55, 3, 36, None),
        (&QUARTIC, 8, 8, 76, None),
    ];
    let mut comparison = Comparison::new("judging, together with banding, orders of refusals", 744);
    for (outline, tolerance, m, length, of_banding) in calls {
        for (x, y) in ENDS.iter().flat_map(|&x| ENDS.map(|y| (x, y))) {
            let beyond = |n: i32| n.unsigned_abs() > FARTHEST as u32;
            let of_point = if beyond(x) { Some((11, 0)) } else { beyond(y).then_some((11, 1)) };
            let outcome = comparison.band_and_judge(outline, tolerance, m, length, x, y);
            match of_banding.or(of_point) {
                Some((number, spot)) => assert_eq!(outcome, Outcome::Refused(number, spot)),
                None => assert!(matches!(outcome, Outcome::Banded([1, 2, 3], _))),
            }
        }
    }
    comparison.report();
}

/// A point near the band of an outline, at times out of range or anywhere.
fn point(random: &mut Random, outline: &[i32], tolerance: i32, m: u32) -> (i32, i32) {
    if random.one_in(8) {
        return (random.pick(&AWKWARD), random.pick(&AWKWARD));
    }
    match Band::new(outline, tolerance, m) {
        Ok(band) => LeafList::new(band.records, m).point(random),
        Err(_) => (random.between(-1_000, 1_000), random.between(-1_000, 1_000)),
    }
}

/// Outlines that pass or are damaged, into lists that are empty, short, exact and longer.
fn outlines(name: &'static str, seed: u64, damaged: bool) {
    let mut comparison = Comparison::new(name, seed);
    let mut random = Random::new(seed);
    for _ in 0..12_000 {
        let mut m = pieces(&mut random);
        let mut outline = outline(&mut random, degrees(m));
        let mut tolerance = tolerance(&mut random);
        if damaged {
            outlines::damage(&mut random, &mut outline, &mut tolerance, &mut m);
        }
        let (x, y) = point(&mut random, &outline, tolerance, m);
        let record = if WRONG.contains(&m) { 18 } else { record_length(m) };
        let leaves = match comparison.band_and_judge(&outline, tolerance, m, 0, x, y) {
            Outcome::Refused(8, leaves) => leaves as usize,
            _ => 1,
        };
        for length in [record * leaves - 1, record * leaves, record * leaves + random.below(60)] {
            comparison.band_and_judge(&outline, tolerance, m, length, x, y);
        }
    }
    let refused = &comparison.tally.refused;
    assert!(comparison.tally.on > 0 && comparison.tally.off > 0);
    assert!(refused[7] > 0 && refused[8] > 0 && refused[11] > 0 && refused[9] == 0 && refused[10] == 0);
    assert!(!damaged || (1..=8).chain([17, 18, 20]).all(|number| refused[number] > 0));
    comparison.report();
}

#[test]
fn whole() {
    outlines("judging, together with banding, seed 742", 742, false);
}

#[test]
fn broken() {
    outlines("judging, together with banding, damaged outlines, seed 743", 743, true);
}
