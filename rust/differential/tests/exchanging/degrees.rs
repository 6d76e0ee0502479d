//! Every old degree against every new one, with every m: first, middle and last curve, with more leaves, as many and fewer.

use differential::exchanging::{padded, records_of, Comparison, Exchange};
use differential::pieces::degrees;
use differential::random::Random;

/// A curve of a degree between two points, whose other points are up to so far away.
fn curve(random: &mut Random, degree: i32, ends: [[i32; 2]; 2], far: i32) -> Vec<i32> {
    let inner = (1..degree).map(|_| [random.between(-far, far), random.between(-far, far)]);
    let points: Vec<[i32; 2]> = [ends[0]].into_iter().chain(inner).chain([ends[1]]).collect();
    [degree].into_iter().chain(points.into_iter().flatten()).collect()
}

/// Curves from point to point of a closed path, of a degree each, with their other points so far away.
fn outline(random: &mut Random, path: &[[i32; 2]], degrees: &[i32], far: i32) -> Vec<i32> {
    let ends = |k: usize| [path[k], path[(k + 1) % path.len()]];
    degrees.iter().enumerate().flat_map(|(k, &degree)| curve(random, degree, ends(k), far)).collect()
}

/// So far away that a curve has one leaf, a few, and more.
const FAR: [i32; 3] = [2, 40, 300];

#[test]
fn every_pair() {
    let seed = 1201;
    let mut comparison = Comparison::new("exchanging, every two degrees, seed 1201");
    let mut random = Random::new(seed);
    for m in 1..=8 {
        for (old, new) in degrees(m).flat_map(|old| degrees(m).map(move |new| (old, new))) {
            for round in 0..9 {
                let path = [[0, 0], [random.between(-50, 50), 30], [-40, random.between(-50, 50)]];
                for number in 0..3 {
                    let mut own = [0, 1, 2].map(|_| random.between(1, *degrees(m).end()));
                    own[number] = old;
                    let outline = outline(&mut random, &path, &own, FAR[round % 3]);
                    let tolerance = 100;
                    let Ok(records) = records_of(&outline, tolerance, m) else { continue };
                    let ends = [path[number], path[(number + 1) % 3]];
                    let new = curve(&mut random, new, ends, FAR[round / 3]);
                    let curve = padded(&mut random, &new);
                    let input = Exchange { outline, tolerance, m, number, curve, given: records.len() };
                    comparison.into_every_length(&input, &records, &mut random);
                }
            }
        }
    }
    let tally = &comparison.tally;
    assert!(tally.degrees.iter().flatten().all(|&accepted| accepted > 200), "{tally}");
    assert!(tally.leaves.iter().all(|&accepted| accepted > 2_000), "{tally}");
    assert!(tally.accepted.iter().all(|&accepted| accepted > 200), "{tally}");
    assert!(tally.refused[8] > 2_000, "{tally}");
    comparison.report();
}
