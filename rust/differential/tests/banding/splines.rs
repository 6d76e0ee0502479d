//! B-splines: lists of points of every shape and length, every m, and refusals 24 and 25 in every place.

use differential::banding::Answer::{Accepted, Refused};
use differential::banding::{Answer, Caller, Comparison};
use differential::outlines::{tolerance, AWKWARD};
use differential::pieces::{pieces, WRONG};
use differential::random::Random;
use differential::splines::{damage, points, EDGE, MOST_POINTS};
use plain::record_length;

/// A comparison of the two engines' banding of B-splines.
fn splines(name: &'static str, seed: u64) -> Comparison {
    Comparison::of(Caller::Splines, name, seed)
}

/// The control points of curve A.
const SPLINE_A: [i32; 8] = [0, 0, 10, 30, 20, 30, 30, 0];

/// Four points of no length, for each m.
const STILL: [i32; 8] = [0; 8];

#[test]
fn examples() {
    let mut comparison = splines("banding, B-splines, examples", 641);
    let one = Accepted { curves: 1, leaves: 1, nodes: 1 };
    let mut expect = |points: &[i32], tolerance, m, expected, first: &[i32]| {
        comparison.tally.outlines += 1;
        assert_eq!(comparison.band_into_every_length(points, tolerance, m), expected);
        assert_eq!(comparison.records()[..first.len()], *first);
    };
    #[rustfmt::skip]
    let leaf = [0, 1, 160, 160, 400, 407, 213, 214, 453, 461, 266, 267, 453, 461, 320, 320, 400, 407];
    expect(&SPLINE_A, 9, 3, one, &leaf);
    expect(&SPLINE_A, 8, 3, Accepted { curves: 1, leaves: 2, nodes: 3 }, &[0, 2, 160, 160, 400]);
    // A point that stands four times, and a line on which points stand evenly: its curve begins at the second.
    expect(&[-7, 5].repeat(4), 2, 1, one, &[0, 1, -112, -112, 80, 80, -112, -112, 80, 80]);
    expect(&[0, 0, 1, 2, 2, 4, 3, 6], 2, 1, one, &[0, 1, 16, 16, 32, 32, 32, 32, 64, 64]);
    // Control points (1/6 0), (1/3 0), (2/3 0) and (5/6 1/6): from 8/3 to 40/3 sixteenths, and from 0 to 8/3.
    expect(&[0, 0, 0, 0, 1, 0, 1, 1], 3, 3, one, &[0, 1, 2, 3, -1, 0]);
    comparison.report();
}

#[test]
fn one_curve_at_every_tolerance() {
    let mut comparison = splines("banding, B-splines, four points at every tolerance to 600", 642);
    for points in [SPLINE_A, [5, -3, 7, 100, -90, 11, 2, 250], [0, 0, 1, 0, 0, 0, 0, 1]] {
        comparison.tally.outlines += 1;
        for (tolerance, m) in (-3..=600).flat_map(|tolerance| (0..=9).map(move |m| (tolerance, m))) {
            comparison.band_into_every_length(&points, tolerance, m);
        }
    }
    comparison.report();
}

/// Lists that pass every check, at one tolerance and with one m.
#[test]
fn random() {
    let seed = 643;
    let mut comparison = splines("banding, random B-splines, seed 643", seed);
    let mut random = Random::new(seed);
    for _ in 0..60_000 {
        let (points, m) = (points(&mut random), pieces(&mut random));
        comparison.tally.outlines += 1;
        comparison.band_into_every_length(&points, tolerance(&mut random), m);
    }
    assert!(comparison.tally.accepted.iter().all(|&accepted| accepted > 5_000));
    assert!(comparison.tally.leaves.iter().all(|&leaves| leaves > 0));
    comparison.report();
}

/// Lists, tolerances and m damaged in one to three places.
#[test]
fn damaged() {
    let seed = 644;
    let mut comparison = splines("banding, damaged B-splines, seed 644", seed);
    let mut random = Random::new(seed);
    for _ in 0..60_000 {
        let (mut points, mut m) = (points(&mut random), pieces(&mut random));
        let mut tolerance = tolerance(&mut random);
        damage(&mut random, &mut points, &mut tolerance, &mut m);
        comparison.tally.outlines += 1;
        comparison.band_into_every_length(&points, tolerance, m);
    }
    assert!([1, 7, 8, 18, 24, 25].iter().all(|&number| comparison.tally.refused[number] > 100));
    assert!((2..=6).chain([17, 19, 20]).all(|number| comparison.tally.refused[number] == 0));
    comparison.report();
}

/// Points on a line, points that stand several times, and points at the ends of their range, with every m.
#[test]
fn awkward_shapes() {
    let mut comparison =
        splines("banding, B-splines on a line, of repeated points, at the ends of the range", 645);
    let (a, b, c, d) = ([0, 0], [400, 300], [EDGE, -EDGE], [-EDGE, EDGE]);
    let mut shapes: Vec<Vec<i32>> = Vec::new();
    // Each of four places holds one of four points: single points, points repeated twice or more, straight lines.
    for choice in 0..4_usize.pow(4) {
        shapes.push((0..4).flat_map(|place| [a, b, c, d][choice / 4_usize.pow(place) % 4]).collect());
    }
    // Evenly and unevenly on one line, there and back.
    shapes.push((0..40).flat_map(|i| [7 * i, -11 * i]).collect());
    shapes.push([0, 3, 1, 9, 9, 2, 20, -5].iter().flat_map(|i| [13 * i, 17 * i]).collect());
    // Every coordinate at an end of its range, a corner after the other.
    shapes.push([EDGE, EDGE, -EDGE, EDGE, -EDGE, -EDGE, EDGE, -EDGE].repeat(8));
    for (points, m) in shapes.iter().flat_map(|points| (1..=8).map(move |m| (points, m))) {
        comparison.tally.outlines += 1;
        for tolerance in [2, 3, 16, 700, 65_536, 1_048_576] {
            comparison.band_into_every_length(points, tolerance, m);
        }
    }
    assert!(comparison.tally.accepted.iter().all(|&accepted| accepted > 500));
    comparison.report();
}

/// The least tolerance that one record meets: its longest diagonal, rounded up.
fn least_tolerance(record: &[i32]) -> i32 {
    let square = |low: i32, high: i32| i64::from(high - low).pow(2);
    let diagonals = record[2..].chunks_exact(4).map(|b| square(b[0], b[1]) + square(b[2], b[3]));
    let longest = diagonals.max().expect("a record has boxes");
    let down = longest.isqrt();
    (if down * down < longest { down + 1 } else { down }) as i32
}

/// Tolerances that a node just meets, and one less.
#[test]
fn edges() {
    let seed = 646;
    let mut comparison = splines("banding, B-splines, tolerances at the diagonals of nodes, seed 646", seed);
    let mut random = Random::new(seed);
    for _ in 0..6_000 {
        let (points, m) = (points(&mut random), pieces(&mut random));
        comparison.tally.outlines += 1;
        let mut tolerance = 1_048_576;
        for _ in 0..4 {
            let Accepted { .. } = comparison.band_into_every_length(&points, tolerance, m) else {
                break;
            };
            let records: Vec<&[i32]> = comparison.records().chunks_exact(record_length(m)).collect();
            let exact = least_tolerance(random.pick(&records));
            if exact < 3 {
                break;
            }
            comparison.band_into_every_length(&points, exact, m);
            tolerance = exact - 1;
        }
    }
    comparison.report();
}

/// The points times 6 have whole control points, so an outline has the same curves: it gets the same answer and the
/// same records.
#[test]
fn as_an_outline() {
    let seed = 647;
    let mut splines = splines("banding, B-splines of whole control points, seed 647", seed);
    let mut outlines = Comparison::new("banding, the same as outlines, seed 647", seed);
    let mut random = Random::new(seed);
    for _ in 0..10_000 {
        let points: Vec<i32> = points(&mut random).into_iter().map(|c| c / 6 * 6).collect();
        let mut outline = Vec::new();
        for b in points.windows(8).step_by(2) {
            outline.push(3);
            for weights in [[1, 4, 1, 0], [0, 4, 2, 0], [0, 2, 4, 0], [0, 1, 4, 1]] {
                let value = |which: usize| (0..4).map(|i| weights[i] * (b[2 * i + which] / 6)).sum::<i32>();
                outline.extend([value(0), value(1)]);
            }
        }
        let (tolerance, m) = (tolerance(&mut random), pieces(&mut random));
        splines.tally.outlines += 1;
        outlines.tally.outlines += 1;
        let answer = splines.band_into_every_length(&points, tolerance, m);
        assert_eq!(outlines.band_into_every_length(&outline, tolerance, m), answer);
        assert!(splines.records() == outlines.records(), "{points:?}, tolerance {tolerance}, m {m}");
    }
    splines.report();
    outlines.report();
}

/// 4,098, 4,099 and 4,100 points, whole, and with a coordinate out of range at both ends.
#[test]
fn about_the_most_points() {
    let seed = 648;
    let mut comparison = splines("banding, B-splines of about 4,099 points, seed 648", seed);
    let mut random = Random::new(seed);
    for (count, m) in (4_098..=4_100).flat_map(|count| (1..=8).map(move |m| (count, m))) {
        let mut at = [0, 0];
        let mut points: Vec<i32> = Vec::new();
        for _ in 0..count {
            at = at.map(|z| (z + random.between(-40, 40)).clamp(-1_000, 1_000));
            points.extend(at);
        }
        let length = points.len() as u64;
        let too_many = (count > MOST_POINTS).then_some(Refused(24, length));
        comparison.tally.outlines += 1;
        match comparison.band_into_every_length(&points, 40, m) {
            Accepted { curves, leaves, nodes } => {
                assert_eq!((curves, nodes, None), (count as u64 - 3, 2 * leaves - curves, too_many));
            }
            refused => assert_eq!(Some(refused), too_many),
        }
        for index in [0, 1, length as usize - 1] {
            let mut points = points.clone();
            points[index] = if index == 0 { EDGE + 1 } else { -EDGE - 1 };
            let expected = too_many.unwrap_or(Refused(25, index as u64));
            assert_eq!(comparison.band_into_every_length(&points, 40, m), expected);
            // A point less, and a number less.
            points.pop();
            assert_eq!(comparison.band(&points, 40, m, 0), Refused(24, length - 1));
        }
    }
    comparison.report();
}

/// 7 in the last of 4,096 curves, whose second differences grow to its end.
#[test]
fn the_last_curve_is_too_wide() {
    let mut comparison = splines("banding, B-splines, the last curve too wide", 649);
    let mut points = vec![0; 2 * MOST_POINTS];
    let mut band = |y| {
        points[2 * MOST_POINTS - 1] = y;
        comparison.tally.outlines += 1;
        comparison.band(&points, 3, 1, 0)
    };
    // The greatest last coordinate that is accepted at 3, and the least that is not.
    let (mut accepted, mut refused) = (0, EDGE);
    while refused - accepted > 1 {
        let middle = (accepted + refused) / 2;
        match band(middle) {
            Refused(8, _) => accepted = middle,
            _ => refused = middle,
        }
    }
    assert!(matches!(band(refused), Refused(7, spot) if spot / 512 == 4_095));
    comparison.report();
}

/// Every length with every fault: 18, 1, 24, 25, 7 and 8 in this order.
#[test]
fn every_refusal_in_its_place() {
    let mut comparison = splines("banding, B-splines, every two refusals together", 650);
    let mut expect = |points: &[i32], tolerance, m, lent, expected: Answer| {
        comparison.tally.outlines += 1;
        let answer = comparison.band(points, tolerance, m, lent);
        assert_eq!(answer, expected, "{} numbers, tolerance {tolerance}, m {m}, lent {lent}", points.len());
    };
    let lengths: Vec<usize> = (0..40).chain(8_190..8_206).chain([16_396, 65_544]).collect();
    for (&length, m) in lengths.iter().flat_map(|length| (1..=8).map(move |m| (length, m))) {
        let fine = length % 2 == 0 && (8..=8_198).contains(&length);
        let (still, far) = (vec![0; length], vec![EDGE + 1; length]);
        let counted = Refused(24, length as u64);
        for wrong in WRONG {
            // 18 before 1, 24 and 25.
            expect(&far, 1, wrong, 0, Refused(18, 0));
        }
        for tolerance in [i32::MIN, 0, 1, 1_048_577, i32::MAX] {
            // 1 before 24 and 25.
            expect(&far, tolerance, m, 0, Refused(1, 0));
        }
        // 24 before 25, 25 before 8.
        expect(&far, 2, m, 0, if fine { Refused(25, 0) } else { counted });
        let leaves = (length / 2).saturating_sub(3) as u64;
        expect(&still, 2, m, 0, if fine { Refused(8, leaves) } else { counted });
        let room = if fine { record_length(m) * leaves as usize } else { 100 };
        let whole = Accepted { curves: leaves, leaves, nodes: leaves };
        expect(&still, 2, m, room, if fine { whole } else { counted });
        if fine {
            expect(&still, 2, m, room - 1, Refused(8, leaves));
        }
    }
    // 25 before 7, 7 before 8; with one piece a wide spline is refused at 2.
    let wide = [0, EDGE, 0, -EDGE, 0, EDGE, 0, -EDGE];
    expect(&wide, 2, 1, 0, Refused(7, 256));
    expect(&[0, EDGE, 0, -EDGE, 0, EDGE, 0, -EDGE - 1], 2, 1, 0, Refused(25, 7));
    comparison.report();
}

/// 25 at every index: the first coordinate that is out of range is named, whatever stands behind it.
#[test]
fn every_index() {
    let mut comparison = splines("banding, B-splines, awkward numbers at every two indexes", 651);
    for (index, &number) in (0..12).flat_map(|index| AWKWARD.iter().map(move |number| (index, number))) {
        for (other, m) in (0..12).map(|other| (other, 1 + other as u32 % 8)) {
            let mut points = [3, -8].repeat(6);
            points[other] = EDGE + 1;
            points[index] = number;
            let bad = points.iter().position(|c| !(-EDGE..=EDGE).contains(c));
            comparison.tally.outlines += 1;
            let answer = comparison.band_into_every_length(&points, 1_048_576, m);
            match bad {
                Some(bad) => assert_eq!(answer, Refused(25, bad as u64)),
                None => assert!(matches!(answer, Accepted { curves: 3, .. })),
            }
        }
    }
    for number in [-EDGE, EDGE] {
        let accepted = Accepted { curves: 1, leaves: 1, nodes: 1 };
        assert_eq!(comparison.band_into_every_length(&[number; 8], 2, 8), accepted);
    }
    assert_eq!(comparison.band(&STILL, 2, 3, 18), Accepted { curves: 1, leaves: 1, nodes: 1 });
    comparison.report();
}
