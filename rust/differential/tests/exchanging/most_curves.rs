//! Outlines of 4,095 and 4,096 curves, and one too many.

use differential::banding::Answer::{Accepted, Refused};
use differential::exchanging::{records_of, Comparison, Exchange};
use differential::outlines::MOST_CURVES;

/// A bow from a point to itself, and a higher one.
const BOW: [i32; 7] = [2, 0, 0, 0, 40, 0, 0];
const HIGHER: [i32; 13] = [5, 0, 0, 0, 90, 0, 90, 0, 90, 0, 90, 0, 0];

#[test]
fn first_middle_and_last() {
    let mut comparison = Comparison::new("exchanging, the most curves");
    for m in [1, 3, 8] {
        for curves in [MOST_CURVES - 1, MOST_CURVES] {
            let outline = BOW.repeat(curves);
            let list = records_of(&outline, 200, m).expect("it is accepted");
            let mut input =
                Exchange { outline, tolerance: 200, m, number: 0, curve: HIGHER, given: list.len() };
            let longer = [&list[..], &[-1; 200]].concat();
            for number in [0, 1, 63, 64, curves / 2, curves - 2, curves - 1] {
                input.number = number;
                let answer = comparison.exchange(&input, &longer);
                match answer {
                    Accepted { curves: counted, .. } => assert_eq!(counted, curves as u64),
                    refused => assert_eq!((m, refused), (1, Refused(20, 7 * number as u64))),
                }
            }
            for number in [curves, curves + 1, usize::MAX] {
                input.number = number;
                assert_eq!(comparison.exchange(&input, &longer), Refused(22, number as u64));
            }
            input.given -= 1;
            input.number = 0;
            assert_eq!(comparison.exchange(&input, &list), Refused(23, list.len() as u64 - 1));
        }
        let outline = BOW.repeat(MOST_CURVES + 1);
        let input = Exchange { outline, tolerance: 200, m, number: 0, curve: HIGHER, given: 0 };
        assert_eq!(comparison.exchange(&input, &[]), Refused(5, 7 * MOST_CURVES as u64));
    }
    comparison.report();
}
