//! Outlines of about as many curves as a list may have, of mixed degrees.

use differential::banding::Answer::{Accepted, Refused};
use differential::banding::{Answer, Comparison};
use differential::outlines::{EDGE, MOST_CURVES};
use differential::random::Random;

/// So many short curves of each degree in turn, each from where the one before ends.
fn curves(random: &mut Random, count: usize) -> Vec<Vec<i32>> {
    let mut end = [0, 0];
    let mut curve = |degree: i32| {
        let mut curve = [&[degree][..], &end].concat();
        for _ in 0..degree {
            end = end.map(|z| (z + random.between(-20, 20)).clamp(-1_000, 1_000));
            curve.extend(end);
        }
        curve
    };
    (0..count).map(|i| curve(1 + i as i32 % 3)).collect()
}

/// The outline with each fault that one of its curves can have, 2, 4, 17 and 7, and the fault's refusal.
fn faults(curves: &[Vec<i32>], number: usize) -> Vec<(Vec<i32>, Answer)> {
    let (before, curve, after) = (curves[..number].concat(), &curves[number], curves[number + 1..].concat());
    let (index, last) = (before.len() as u64, curve.len() - 1);
    let with = |at: usize, change: i32| {
        let mut curve = curve.clone();
        curve[at] += change;
        curve
    };
    let wide = [&[3][..], &curve[1..3], &[0, EDGE, 0, EDGE], &curve[last - 1..]].concat();
    let planted = [
        (with(0, 5), Refused(2, index)),
        (with(last, EDGE + 1_001), Refused(4, index + last as u64)),
        (with(1, -2 * EDGE), Refused(4, index + 1)),
        (with(1, 1), Refused(17, index)),
        (with(2, -1), Refused(17, index)),
        (wide, Refused(7, 512 * number as u64 + 256)),
    ];
    planted.map(|(curve, refused)| ([&before[..], &curve, &after].concat(), refused)).to_vec()
}

#[test]
fn about_the_most_curves() {
    let seed = 621;
    let mut comparison = Comparison::new("banding, about 4,096 curves, seed 621", seed);
    let mut random = Random::new(seed);
    for (count, m) in [4_095, 4_096, 4_097].into_iter().flat_map(|count| [1, 3, 8].map(|m| (count, m))) {
        let curves = curves(&mut random, count);
        let outline = curves.concat();
        let too_many = (count == 4_097).then(|| Refused(5, curves[..4_096].concat().len() as u64));
        // 8 is among the answers.
        comparison.tally.outlines += 1;
        match comparison.band_into_every_length(&outline, 6, m) {
            Accepted { curves, leaves, nodes } => {
                assert_eq!((curves, nodes, None), (count as u64, 2 * leaves - curves, too_many));
                assert!(leaves > curves);
            }
            refused => assert_eq!(Some(refused), too_many),
        }
        // The last curve is cut short or has another fault; of a curve too many nothing is read.
        let length = outline.len() - 1;
        let cut = (outline[..length].to_vec(), Refused(3, length as u64));
        for (outline, refused) in faults(&curves, count - 1).into_iter().chain([cut]) {
            comparison.tally.outlines += 1;
            assert_eq!(comparison.band(&outline, 3, m, 0), too_many.unwrap_or(refused));
        }
    }
    assert!([2, 3, 4, 5, 7, 8, 17].iter().all(|&number| comparison.tally.refused[number] > 0));
    comparison.report();
}

/// A fault of the last curve that is taken comes before 5, but for that of the walk.
#[test]
fn a_curve_too_many_behind_faults() {
    let seed = 622;
    let mut comparison = Comparison::new("banding, faults before the 4,097th curve, seed 622", seed);
    let mut random = Random::new(seed);
    for count in [4_097, 4_098] {
        let curves = curves(&mut random, count);
        let beyond = curves[MOST_CURVES..].concat().len();
        for (outline, refused) in faults(&curves, MOST_CURVES - 1) {
            let too_many = Refused(5, (outline.len() - beyond) as u64);
            let expected = if matches!(refused, Refused(7, _)) { too_many } else { refused };
            comparison.tally.outlines += 1;
            assert_eq!(comparison.band_into_every_length(&outline, 60, 3), expected);
        }
    }
    comparison.report();
}

/// The largest spot of 7: the last node of the last curve, whose second differences grow from 0 to its end.
#[test]
fn the_last_node_of_the_last_curve() {
    let mut comparison = Comparison::new("banding, the largest spot", 623);
    let outline = [&[1, 0, 0, 0, 0].repeat(MOST_CURVES - 1)[..], &[3, 0, 0, 0, 0, 0, 0, 0, EDGE]].concat();
    let mut band = |tolerance| {
        comparison.tally.outlines += 1;
        comparison.band(&outline, tolerance, 1, 0)
    };
    let least = (2..).find(|&tolerance| matches!(band(tolerance), Refused(8, _))).expect("some pass");
    assert_eq!(band(least - 1), Refused(7, 512 * 4_095 + 511));
    comparison.report();
}
