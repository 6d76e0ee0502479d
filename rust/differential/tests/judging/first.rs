//! Points that several covers and several records hold: the first record of the list is named, and in it the
//! lowest cover.

use differential::judging::Answer::{Off, On};
use differential::judging::{Band, Comparison};
use differential::leaf_lists::{leaf_list, LeafList};
use differential::outlines::{outline, tolerance};
use differential::pieces::{degrees, pieces};
use differential::random::Random;
use plain::record_length;

/// A record with these four boxes.
fn record(curve: i32, node: i32, boxes: [[i32; 4]; 4]) -> Vec<i32> {
    [curve, node].into_iter().chain(boxes.into_iter().flatten()).collect()
}

/// The records of a list, last first.
fn reversed(leaves: &[i32], m: u32) -> Vec<i32> {
    leaves.chunks_exact(record_length(m)).rev().flatten().copied().collect()
}

/// A corner of a box of the list: a break point that two covers share, or an end that two records may.
fn corner(random: &mut Random, leaves: &[i32], m: u32) -> (i32, i32) {
    let length = record_length(m);
    let at = length * random.below(leaves.len() / length) + 2 + 4 * random.below(m as usize + 1);
    (leaves[at + random.below(2)], leaves[at + 2 + random.below(2)])
}

#[test]
fn by_place_in_the_list_and_in_the_record() {
    let mut comparison = Comparison::new("judging, the first holder");
    let low = record(0, 2, [[0, 1, 0, 1], [2, 3, 0, 1], [4, 5, 0, 1], [6, 7, 0, 1]]);
    let high = record(0, 3, [[6, 7, 0, 1], [8, 9, 0, 1], [10, 11, 0, 1], [12, 13, 0, 1]]);
    let wide = record(63, 511, [[0, 13, 0, 1], [0, 13, 0, 1], [0, 13, 0, 1], [0, 13, 0, 1]]);
    let mut named = |records: &[&Vec<i32>], x: i32| {
        let leaves: Vec<i32> = records.iter().flat_map(|r| r.iter().copied()).collect();
        comparison.judge(&leaves, 3, x, 0)
    };
    // The box at a break point belongs to the cover before it and to the one after.
    assert_eq!(named(&[&low, &high], 3), On { leaf: 0, cover: 0 });
    assert_eq!(named(&[&low, &high], 5), On { leaf: 0, cover: 1 });
    // The last box of one record is the first of the next; node numbers do not matter.
    assert_eq!(named(&[&low, &high], 6), On { leaf: 0, cover: 2 });
    assert_eq!(named(&[&high, &low], 6), On { leaf: 0, cover: 0 });
    assert_eq!(named(&[&high, &low], 5), On { leaf: 1, cover: 1 });
    // A record that holds everything, behind the others and in front of them; the same record twice.
    assert_eq!(named(&[&low, &high, &wide], 9), On { leaf: 1, cover: 0 });
    assert_eq!(named(&[&wide, &low, &high], 9), On { leaf: 0, cover: 0 });
    assert_eq!(named(&[&low, &high, &high], 13), On { leaf: 1, cover: 2 });
    assert_eq!(named(&[&low, &high, &high], 14), Off);
    comparison.report();
}

#[test]
fn lists_repeated_and_turned_round() {
    let mut comparison = Comparison::new("judging, records that stand twice, seed 731");
    let mut random = Random::new(731);
    for _ in 0..15_000 {
        let list = leaf_list(&mut random);
        let twice = [list.numbers.clone(), list.numbers.clone()].concat();
        let back = [reversed(&list.numbers, list.m), list.numbers.clone()].concat();
        for leaves in [&list.numbers, &twice, &back] {
            let (x, y) = list.point(&mut random);
            comparison.judge(leaves, list.m, x, y);
            let (x, y) = corner(&mut random, leaves, list.m);
            comparison.judge(leaves, list.m, x, y);
        }
    }
    assert!(comparison.tally.shared > 50_000, "{}", comparison.tally);
    comparison.report();
}

#[test]
fn bands_in_either_order() {
    let mut comparison = Comparison::new("judging, bands in either order, seed 732");
    let mut random = Random::new(732);
    for _ in 0..4_000 {
        let m = pieces(&mut random);
        let outline = outline(&mut random, degrees(m));
        let tolerance = tolerance(&mut random);
        let Ok(band) = Band::new(&outline, tolerance, m) else { continue };
        let back = reversed(&band.records, band.m);
        let list = LeafList::new(band.records, band.m);
        for leaves in [&list.numbers, &back] {
            let (x, y) = corner(&mut random, leaves, list.m);
            comparison.judge(leaves, list.m, x, y);
            let (x, y) = list.point(&mut random);
            comparison.judge(leaves, list.m, x, y);
        }
    }
    assert!(comparison.tally.shared > 2_000, "{}", comparison.tally);
    comparison.report();
}
