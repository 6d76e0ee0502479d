//! Every list of up to five numbers out of a few awkward ones.

use differential::banding::{Answer, Comparison};
use differential::outlines::EDGE;
use differential::pieces::WRONG;
use plain::record_length;

const NUMBERS: [i32; 12] = [i32::MIN, -EDGE - 1, -EDGE, 0, 1, 2, 3, 4, 5, 6, EDGE + 1, i32::MAX];

#[test]
fn every_short_list() {
    let mut comparison = Comparison::new("banding, every list of up to 5 awkward numbers", 401);
    for length in 0..=5 {
        for choice in 0..NUMBERS.len().pow(length) {
            let digit = |place| choice / NUMBERS.len().pow(place) % NUMBERS.len();
            let outline: Vec<i32> = (0..length).map(|place| NUMBERS[digit(place)]).collect();
            comparison.tally.outlines += 1;
            // The first number, which is a degree or is not, is not what decides m.
            let turn = choice / NUMBERS.len();
            let (m, wrong) = (1 + turn as u32 % 8, WRONG[turn % WRONG.len()]);
            comparison.band(&outline, 1, m, record_length(m));
            comparison.band(&outline, 2, m, record_length(m));
            comparison.band(&outline, EDGE, m, record_length(m) - 1);
            assert_eq!(comparison.band(&outline, 1 + turn as i32 % 2, wrong, 18), Answer::Refused(18, 0));
        }
    }
    comparison.report();
}
