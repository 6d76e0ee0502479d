//! Outlines that meet, that nearly meet and that do not, of every pair of degrees.

use differential::banding::Answer::{self, Accepted, Refused};
use differential::banding::Comparison;
use differential::outlines::{in_range, EDGE, MOST_CURVES};
use differential::pieces::{degrees, pieces, pieces_for};
use differential::random::Random;

/// Where the next curve begins, from where the one before ends.
#[derive(Debug, Clone, Copy, PartialEq, Eq)]
enum Start {
    /// At its end.
    Meeting,
    /// This far off.
    Off(i32, i32),
    /// At its first point.
    First,
    /// At the point before its last.
    NextToLast,
    /// At (0 0), where control points past the degree stand.
    Padding,
    /// At its end with x and y exchanged.
    Exchanged,
}

const STARTS: [Start; 14] = [
    Start::Meeting,
    Start::Off(1, 0),
    Start::Off(-1, 0),
    Start::Off(0, 1),
    Start::Off(0, -1),
    Start::Off(1, -1),
    Start::Off(-1, 1),
    Start::Off(65_536, 0),
    Start::Off(0, -65_536),
    Start::Off(12_345, 678),
    Start::First,
    Start::NextToLast,
    Start::Padding,
    Start::Exchanged,
];

impl Start {
    fn after(self, before: &[i32]) -> [i32; 2] {
        let points: Vec<[i32; 2]> = before[1..].chunks_exact(2).map(|point| [point[0], point[1]]).collect();
        let [x, y] = points[points.len() - 1];
        match self {
            Start::Meeting => [x, y],
            Start::Off(by_x, by_y) => [x + by_x, y + by_y],
            Start::First => points[0],
            Start::NextToLast => points[points.len() - 2],
            Start::Padding => [0, 0],
            Start::Exchanged => [y, x],
        }
    }
}

/// A curve of a degree from a point, with numbers that are all of one size, or that are one point.
fn curve(random: &mut Random, degree: i32, start: [i32; 2]) -> Vec<i32> {
    let size = random.magnitude().min(4_000);
    let mut curve = vec![degree, start[0], start[1]];
    let still = random.one_in(8);
    for _ in 0..degree {
        let mut next = |z: i32| if still { z } else { (z + random.between(-size, size)).clamp(-EDGE, EDGE) };
        curve.extend(start.map(&mut next));
    }
    curve
}

/// The refusal of the first number that is no coordinate, or the first curve that does not meet the one
/// before; document 02's table, in terms of points.
fn expected(curves: &[Vec<i32>]) -> Option<Answer> {
    let mut index = 0;
    for (number, curve) in curves.iter().enumerate() {
        if let Some(bad) = curve[1..].iter().position(|&n| !in_range(n)) {
            return Some(Refused(4, (index + 1 + bad) as u64));
        }
        if number > 0 && !curves[number - 1].ends_with(&curve[1..3]) {
            return Some(Refused(17, index as u64));
        }
        index += curve.len();
    }
    None
}

fn check(comparison: &mut Comparison, curves: &[Vec<i32>], tolerance: i32, m: u32) -> bool {
    comparison.tally.outlines += 1;
    let answer = comparison.band_into_every_length(&curves.concat(), tolerance, m);
    match expected(curves) {
        Some(refused) => assert_eq!(answer, refused, "{curves:?}"),
        None => assert!(
            matches!(answer, Accepted { .. } | Refused(7, _)),
            "{curves:?} meet, and the answer is {answer:?}"
        ),
    }
    matches!(answer, Accepted { .. })
}

#[test]
fn every_pair_of_degrees() {
    let seed = 611;
    let mut comparison = Comparison::new("banding, curves that meet and do not, seed 611", seed);
    let mut random = Random::new(seed);
    for (first, second) in (1..=5).flat_map(|first| (1..=5).map(move |second| (first, second))) {
        let mut accepted = 0;
        for start in STARTS {
            for _ in 0..200 {
                let reach = random.magnitude();
                let from = [0, 1].map(|_| random.between(-reach, reach));
                let before = curve(&mut random, first, from);
                let mut after = curve(&mut random, second, start.after(&before));
                // At times the outline is closed, where it need not be.
                if random.one_in(4) {
                    let end = after.len() - 2;
                    after[end..].copy_from_slice(&before[1..3]);
                }
                let m = pieces_for(&mut random, first.max(second));
                accepted += u32::from(check(&mut comparison, &[before, after], 44, m));
            }
        }
        assert!(accepted > 100, "degrees {first} and {second}");
    }
    let refused = &comparison.tally.refused;
    assert!(refused[17] > 25_000 && refused[4] > 0);
    comparison.report();
}

#[test]
fn the_first_gap_of_many_curves() {
    let seed = 612;
    let mut comparison = Comparison::new("banding, gaps among many curves, seed 612", seed);
    let mut random = Random::new(seed);
    let few = [3, 4, 10, 64, 65].map(|curves| (curves, 200, 44));
    let many = [MOST_CURVES, MOST_CURVES + 1].map(|curves| (curves, 20, EDGE));
    for (curves, times, tolerance) in few.into_iter().chain(many) {
        for _ in 0..times {
            // None, one or two of them begin elsewhere.
            let gaps: Vec<usize> = (0..random.below(3)).map(|_| 1 + random.below(curves - 1)).collect();
            let m = pieces(&mut random);
            let mut outline: Vec<Vec<i32>> = Vec::new();
            for number in 0..curves {
                let start = match outline.last() {
                    Some(before) if gaps.contains(&number) => random.pick(&STARTS).after(before),
                    Some(before) => Start::Meeting.after(before),
                    None => [0, 1].map(|_| random.between(-1_000, 1_000)),
                };
                let degree = random.between(1, *degrees(m).end());
                outline.push(curve(&mut random, degree, start));
            }
            comparison.tally.outlines += 1;
            let answer = comparison.band_into_every_length(&outline.concat(), tolerance, m);
            let most = &outline[..curves.min(MOST_CURVES)];
            match expected(most) {
                Some(refused) => assert_eq!(answer, refused),
                None if curves > MOST_CURVES => assert_eq!(answer, Refused(5, most.concat().len() as u64)),
                None => assert!(matches!(answer, Accepted { .. } | Refused(7, _))),
            }
        }
    }
    let refused = &comparison.tally.refused;
    assert!(
        refused[17] > 500
            && refused[5] > 4
            && comparison.tally.accepted.iter().all(|&accepted| accepted > 10)
    );
    comparison.report();
}
