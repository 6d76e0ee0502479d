//! Tolerances at which a node only just meets, and only just does not.

use differential::banding::{Answer, Comparison};
use differential::outlines::{outline, EDGE};
use differential::pieces::{degrees, pieces};
use differential::random::Random;
use plain::record_length;

const OUTLINES: u64 = 12_000;

/// The least tolerance that one record meets: its longest diagonal, rounded up.
fn least_tolerance(record: &[i32]) -> i32 {
    let square = |low: i32, high: i32| i64::from(high - low).pow(2);
    let diagonals = record[2..].chunks_exact(4).map(|b| square(b[0], b[1]) + square(b[2], b[3]));
    let longest = diagonals.max().expect("a record has boxes");
    let down = longest.isqrt();
    (if down * down < longest { down + 1 } else { down }) as i32
}

#[test]
fn tolerances_that_a_node_just_meets_and_one_less() {
    let seed = 301;
    let mut comparison = Comparison::new("banding, tolerances at the diagonals of nodes, seed 301", seed);
    let mut random = Random::new(seed);
    for _ in 0..OUTLINES {
        let m = pieces(&mut random);
        let outline = outline(&mut random, degrees(m));
        comparison.tally.outlines += 1;
        // From the greatest tolerance downwards: the least that a leaf meets, then one less, which splits it.
        let mut tolerance = EDGE;
        for _ in 0..4 {
            let answer = comparison.band_into_every_length(&outline, tolerance, m);
            let Answer::Accepted { .. } = answer else {
                break;
            };
            let records: Vec<&[i32]> = comparison.records().chunks_exact(record_length(m)).collect();
            let exact = least_tolerance(random.pick(&records));
            if exact < 3 {
                break;
            }
            comparison.band_into_every_length(&outline, exact, m);
            tolerance = exact - 1;
        }
    }
    assert!(comparison.tally.accepted.iter().all(|&accepted| accepted > 5_000));
    comparison.report();
}
