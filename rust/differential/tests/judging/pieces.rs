//! The number of pieces that judging is told: one list read with every m.

use differential::judging::Answer::{Off, On, Refused};
use differential::judging::Comparison;
use differential::leaf_lists::FARTHEST;
use differential::pieces::WRONG;
use differential::random::Random;
use plain::record_length;

/// Numbers from 1 to 63 that do not fall. Wherever a record begins, its curve and its node are in range, and
/// no low is above its high.
fn rising(random: &mut Random, length: usize) -> Vec<i32> {
    let mut numbers: Vec<i32> = (0..length).map(|_| random.between(1, 63)).collect();
    numbers.sort();
    numbers
}

#[test]
fn one_list_with_every_m() {
    let mut comparison = Comparison::new("judging, one list with every m, seed 761");
    let mut random = Random::new(761);
    for _ in 0..20_000 {
        // The length is one of records with some m, and at times of many.
        let record = record_length(1 + random.below(8) as u32);
        let whole = if random.one_in(3) { 630 } else { record * (1 + random.below(8)) };
        let leaves = rising(&mut random, whole);
        // Numbers that some box may have as its x and its y, or next to them.
        let at = random.below(whole - 3);
        let mut near = |number: i32| number + random.pick(&[0, 0, 0, 0, 1, -1]);
        let (x, y) = (near(leaves[at]), near(leaves[at + 2]));
        for m in (0..=9).chain([random.pick(&WRONG)]) {
            let answer = comparison.judge(&leaves, m, x, y);
            match m {
                1..=8 if whole % record_length(m) == 0 => assert!(matches!(answer, On { .. } | Off)),
                1..=8 => assert_eq!(answer, Refused(9, whole as u64)),
                _ => assert_eq!(answer, Refused(18, 0)),
            }
        }
    }
    let tally = &comparison.tally;
    assert!(tally.off > 10_000 && tally.by_cover.iter().all(|&on| on > 50), "{tally}");
    comparison.report();
}

#[test]
fn pieces_come_first() {
    let mut comparison = Comparison::new("judging, m out of range before all else");
    let record = [0, 1, 0, 0, 0, 0, 9, 9, 9, 9, 9, 9, 9, 9, 9, 9, 9, 9];
    let mut bad = record;
    bad[2] = FARTHEST + 1;
    for m in WRONG {
        for leaves in [&[][..], &record, &record[..17], &bad] {
            for (x, y) in [(5, 5), (FARTHEST + 1, 0), (0, i32::MIN)] {
                assert_eq!(comparison.judge(leaves, m, x, y), Refused(18, 0));
            }
        }
    }
    comparison.report();
}
