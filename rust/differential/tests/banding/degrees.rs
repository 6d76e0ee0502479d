//! Every degree with every m: the rows, the greatest depths, and refusal 20 among the others.

use differential::banding::Answer::{Accepted, Refused};
use differential::banding::Comparison;
use differential::outlines::{deepest, outline, tolerance, MOST_CURVES};
use differential::pieces::{settings, WRONG};
use differential::random::Random;
use plain::record_length;

/// The greatest depth of a degree.
fn greatest_depth(degree: i32) -> u32 {
    if degree <= 3 {
        8
    } else {
        4
    }
}

#[test]
fn every_degree_with_every_m() {
    let seed = 621;
    let mut comparison = Comparison::new("banding, every degree with every m, seed 621", seed);
    let mut random = Random::new(seed);
    for (degree, m) in settings() {
        let greatest = greatest_depth(degree);
        let (mut accepted, mut too_wide, mut at_depth) = (0, 0, [0; 9]);
        for _ in 0..2_000 {
            let outline = outline(&mut random, degree..=degree);
            comparison.tally.outlines += 1;
            match comparison.band_into_every_length(&outline, tolerance(&mut random), m) {
                Accepted { .. } => accepted += 1,
                Refused(7, spot) => {
                    too_wide += 1;
                    assert_eq!((spot as u32 % 512).ilog2(), greatest, "degree {degree}, m {m}");
                }
                refused => panic!("degree {degree}, m {m}: {refused:?}"),
            }
            for record in comparison.records().chunks_exact(record_length(m)) {
                at_depth[record[1].ilog2() as usize] += 1;
            }
        }
        let (met, beyond) = at_depth.split_at(greatest as usize + 1);
        assert!(accepted > 800, "degree {degree}, m {m}: {accepted} accepted");
        assert!(beyond.iter().all(|&leaves| leaves == 0), "degree {degree}, m {m}: {at_depth:?}");
        // A line of any length meets every tolerance.
        assert!(
            degree == 1 || too_wide > 50 && met.iter().all(|&leaves| leaves > 0),
            "degree {degree}, m {m}"
        );
    }
    comparison.report();
}

/// Curves with x all 0, whose second differences in y are of either sign and of two sizes, alone and together.
#[test]
fn every_row() {
    let mut comparison =
        Comparison::new("banding, second differences of either sign, alone and together", 622);
    for (degree, m) in settings().filter(|&(degree, _)| degree > 1) {
        for choice in 0..5_usize.pow(degree as u32 - 1) {
            // Second differences −10000, −1, 0, 1 and 10000.
            let mut y = vec![0, 0];
            for k in 0..degree as usize - 1 {
                let difference = [-10_000, -1, 0, 1, 10_000][choice / 5_usize.pow(k as u32) % 5];
                y.push(difference + 2 * y[k + 1] - y[k]);
            }
            let mut outline = vec![degree];
            outline.extend(y.iter().flat_map(|&y| [0, y]));
            comparison.tally.outlines += 1;
            for tolerance in [3, 700, 1_048_576] {
                comparison.band_into_every_length(&outline, tolerance, m);
            }
        }
    }
    comparison.report();
}

/// A curve of degree 3, then of degree 4, of degree 5 and of degree 3, all of whose leaves are at the greatest
/// depth, each from where the one before ends.
#[test]
fn both_greatest_depths() {
    let seed = 623;
    let mut comparison = Comparison::new("banding, both greatest depths, seed 623", seed);
    let mut random = Random::new(seed);
    for m in 3..=8 {
        let (mut outline, mut end) = (Vec::new(), [0, 0]);
        for degree in [3, 4, 5, 3] {
            let mut curve = deepest(&mut random, degree, 1, m);
            let by = [end[0] - curve[1], end[1] - curve[2]];
            for point in curve[1..].chunks_exact_mut(2) {
                end = [point[0] + by[0], point[1] + by[1]];
                point.copy_from_slice(&end);
            }
            outline.extend(curve);
        }
        comparison.tally.outlines += 1;
        let answer = comparison.band_into_every_length(&outline, 3, m);
        assert_eq!(answer, Accepted { curves: 4, leaves: 2 * 256 + 2 * 16, nodes: 2 * 511 + 2 * 31 });
        let nodes: Vec<i32> = comparison.records().chunks_exact(record_length(m)).map(|r| r[1]).collect();
        let expected = (256..512).chain(16..32).chain(16..32).chain(256..512);
        assert_eq!(nodes, expected.collect::<Vec<i32>>());
    }
    comparison.report();
}

/// 20 with each refusal that comes before it and after it.
#[test]
fn too_few_pieces() {
    let mut comparison = Comparison::new("banding, degrees 4 and 5 with every m", 624);
    let line = [1, 0, 0, 0, 0];
    for (degree, m) in [4, 5].into_iter().flat_map(|degree| (1..=8).map(move |m| (degree, m))) {
        let few = m < 3;
        let mut expect = |outline: &[i32], tolerance, m, expected| {
            comparison.tally.outlines += 1;
            let answer = comparison.band_into_every_length(outline, tolerance, m);
            assert_eq!(answer, expected, "{outline:?}, tolerance {tolerance}, m {m}");
        };
        let points = vec![0; 2 * degree as usize + 2];
        let curve = [&[degree], &points[..]].concat();
        let unless_few = |other, index| if few { Refused(20, index) } else { other };
        expect(&curve, 2, m, unless_few(Accepted { curves: 1, leaves: 1, nodes: 1 }, 0));
        // 18 and 1 before it.
        for wrong in WRONG {
            expect(&curve, 1, wrong, Refused(18, 0));
        }
        expect(&curve, 1, m, Refused(1, 0));
        // 2, of the same curve and of the one before.
        expect(&[6], 2, m, Refused(2, 0));
        expect(&[&[6][..], &curve].concat(), 2, m, Refused(2, 0));
        expect(&[&line[..], &[6], &curve].concat(), 2, m, Refused(2, 5));
        expect(&[&curve[..], &[6]].concat(), 2, m, unless_few(Refused(2, curve.len() as u64), 0));
        // 3: it comes straight after 2.
        for length in 1..curve.len() {
            expect(&curve[..length], 2, m, unless_few(Refused(3, length as u64), 0));
            let outline = [&line[..], &curve[..length]].concat();
            expect(&outline, 2, m, unless_few(Refused(3, 5 + length as u64), 5));
        }
        expect(&line[..3], 2, m, Refused(3, 3));
        // 4 and 17, of the same curve and of the one before.
        let far = [&[degree, 0, i32::MAX][..], &points[2..]].concat();
        expect(&far, 2, m, unless_few(Refused(4, 2), 0));
        expect(&[&[1, 0, 0, 0, i32::MIN][..], &curve].concat(), 2, m, Refused(4, 4));
        let apart = [1, 0, 0, 0, 1];
        expect(&[&apart[..], &curve].concat(), 2, m, unless_few(Refused(17, 5), 5));
        expect(&[&line[..], &[1, 1, 0, 0, 0], &curve].concat(), 2, m, Refused(17, 5));
        // 5: a curve too many is not looked at, the last one is.
        let index = 5 * MOST_CURVES as u64;
        expect(&[&line.repeat(MOST_CURVES)[..], &curve].concat(), 2, m, Refused(5, index));
        let all = MOST_CURVES as u64;
        let accepted = Accepted { curves: all, leaves: all, nodes: all };
        expect(&[&line.repeat(MOST_CURVES - 1)[..], &curve].concat(), 2, m, unless_few(accepted, index - 5));
    }
    comparison.report();
}
