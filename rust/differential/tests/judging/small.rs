//! Every two boxes with small bounds, as each cover of a record, and every point round them.

use differential::judging::Answer::{Off, On};
use differential::judging::Comparison;

/// Every low and high from 0 to `most`.
fn bounds(most: i32) -> Vec<[i32; 2]> {
    (0..=most).flat_map(|low| (low..=most).map(move |high| [low, high])).collect()
}

/// Every box with bounds from 0 to `most`.
fn boxes(most: i32) -> Vec<[i32; 4]> {
    let bounds = bounds(most);
    let with = |x: &[i32; 2]| bounds.iter().map(|y| [x[0], x[1], y[0], y[1]]).collect::<Vec<_>>();
    bounds.iter().flat_map(with).collect()
}

/// A record of m pieces whose cover `cover` is of the two boxes. The others are of one of them alone.
fn record(m: u32, cover: usize, first: &[i32; 4], second: &[i32; 4]) -> Vec<i32> {
    let mut record = vec![0, 1];
    for i in 0..=m as usize {
        record.extend(if i <= cover { first } else { second });
    }
    record
}

#[test]
fn every_two_small_boxes() {
    let mut comparison = Comparison::new("judging, every two boxes from 0 to 3");
    let most = 3;
    for (number, first) in boxes(most).iter().enumerate() {
        for (other, second) in boxes(most).iter().enumerate() {
            // Every m and each of its covers in turn.
            let turn = number * number + other;
            let m = 1 + turn as u32 % 8;
            let leaves = record(m, turn / 8 % m as usize, first, second);
            for x in -1..=most + 1 {
                for y in -1..=most + 1 {
                    comparison.judge(&leaves, m, x, y);
                }
            }
        }
    }
    comparison.report();
}

#[test]
fn each_cover_of_each_record_is_named() {
    let mut comparison = Comparison::new("judging, each cover of each record");
    // Boxes that are single points, along a staircase: each cover is a stair with a middle of its own.
    let corner = |i: i32| [20 * (i / 2 + i % 2), 20 * (i / 2)].map(|z| z - 30);
    for m in 1..=8 {
        let pieces = m as i32;
        let mut leaves = Vec::new();
        for leaf in 0..5 {
            leaves.extend([63 - leaf, 511 - leaf]);
            for i in 0..=pieces {
                let [x, y] = corner(pieces * leaf + i);
                leaves.extend([x, x, y, y]);
            }
        }
        for (leaf, cover) in (0..5).flat_map(|leaf| (0..m as usize).map(move |cover| (leaf, cover))) {
            let i = pieces * leaf as i32 + cover as i32;
            let ([x, y], [next_x, next_y]) = (corner(i), corner(i + 1));
            let (x, y) = ((x + next_x) / 2, (y + next_y) / 2);
            assert_eq!(comparison.judge(&leaves, m, x, y), On { leaf, cover });
            assert_eq!(comparison.judge(&leaves, m, x + 1, y - 1), Off);
        }
    }
    comparison.report();
}
