//! Damaged leaf lists and points: each refusal, every two faults in every order of places, and extreme
//! numbers everywhere.

use differential::judging::Answer::Refused;
use differential::judging::Comparison;
use differential::leaf_lists::{AWKWARD, FARTHEST};
use differential::pieces::WRONG;
use plain::record_length;
use std::collections::BTreeSet;

/// Boxes with an edge of every kind.
const BOXES: [[i32; 4]; 9] = [
    [0, 0, 0, 38],
    [160, 160, 319, 363],
    [320, 320, 319, 363],
    [-9, 5, -9, 5],
    [-FARTHEST, FARTHEST, -FARTHEST, FARTHEST],
    [-1, -1, 7, 7],
    [0, 0, 0, 0],
    [-8, -7, -6, -5],
    [FARTHEST - 1, FARTHEST, -FARTHEST, 1 - FARTHEST],
];

/// Three records of m pieces that pass. One of them has the box that holds all.
fn records(m: u32) -> Vec<i32> {
    let mut records = Vec::new();
    for (number, head) in [[0, 1], [4_095, 511], [64, 256]].into_iter().enumerate() {
        records.extend(head);
        let boxes = BOXES.iter().cycle().skip(3 * number).take(m as usize + 1);
        records.extend(boxes.flatten());
    }
    records
}

/// A fault and where it is planted. Places are indexes of the list.
#[derive(Debug, Clone, Copy, PartialEq, Eq)]
enum Fault {
    /// 18: so many pieces.
    Pieces(u32),
    /// 9: no number at all.
    Empty,
    /// 9: so many numbers fewer.
    Cut(usize),
    /// 9: so many numbers more.
    Longer(usize),
    /// 10: this number out of its range.
    Number(usize, i32),
    /// 10: this low one above its high.
    Above(usize),
    /// 11: this x.
    X(i32),
    /// 11: this y.
    Y(i32),
}

use Fault::*;

impl Fault {
    /// The refusal's number and spot for records of m pieces, where there is no other fault.
    fn refusal(self, m: u32) -> (u32, u64) {
        let length = 3 * record_length(m);
        let (number, spot) = match self {
            Pieces(_) => (18, 0),
            Empty => (9, 0),
            Cut(fewer) => (9, length - fewer),
            Longer(more) => (9, length + more),
            // A high below every low is a low above its high.
            Number(index, number) if is_high(m, index) && number < 0 => (10, index - 1),
            Number(index, _) | Above(index) => (10, index),
            X(_) => (11, 0),
            Y(_) => (11, 1),
        };
        (number, spot as u64)
    }

    /// The index of the list that it writes to.
    fn writes(self) -> Option<usize> {
        match self {
            Number(index, _) | Above(index) => Some(index),
            _ => None,
        }
    }

    /// Faults that alter the length.
    fn is_of_length(self) -> bool {
        matches!(self, Empty | Cut(_) | Longer(_))
    }
}

/// Whether the number at an index is a box's high.
fn is_high(m: u32, index: usize) -> bool {
    index % record_length(m) > 1 && index % 2 == 1
}

/// A leaf list, m and a point.
type Planted = (Vec<i32>, u32, i32, i32);

/// The list of m pieces and the point with faults planted, or nothing where they cannot be had together.
fn plant(m: u32, faults: &[Fault]) -> Option<Planted> {
    let (mut leaves, mut m, mut x, mut y) = (records(m), m, 240, 363);
    // A low is put above its high after the high is damaged, and the length is altered last.
    let mut faults = faults.to_vec();
    faults.sort_by_key(|fault| match fault {
        Number(..) => 0,
        Above(_) => 1,
        _ => 2,
    });
    for fault in faults {
        match fault {
            Pieces(bad) => m = bad,
            Number(index, number) => leaves[index] = number,
            Above(index) => leaves[index] = leaves[index + 1].checked_add(1)?,
            Empty => leaves.clear(),
            Cut(fewer) => leaves.truncate(leaves.len() - fewer),
            Longer(more) => leaves.resize(leaves.len() + more, 1),
            X(bad) => x = bad,
            Y(bad) => y = bad,
        }
    }
    Some((leaves, m, x, y))
}

/// Every kind of fault at every place of records of m pieces.
fn faults(m: u32) -> Vec<Fault> {
    let record = record_length(m);
    let mut faults = vec![Empty];
    faults.extend(WRONG.map(Pieces));
    faults.extend((1..record).chain([record + 1, 3 * record - 1]).map(Cut));
    faults.extend((1..record).chain([record + 1]).map(Longer));
    for index in 0..3 * record {
        let bad: &[i32] = match index % record {
            0 => &[i32::MIN, -1, 4_096, i32::MAX],
            1 => &[i32::MIN, -1, 0, 512, i32::MAX],
            _ => &[i32::MIN, -FARTHEST - 1, FARTHEST + 1, i32::MAX],
        };
        faults.extend(bad.iter().map(|&number| Number(index, number)));
        if index % record > 1 && !is_high(m, index) {
            faults.push(Above(index));
        }
    }
    let beyond = [i32::MIN, -FARTHEST - 1, FARTHEST + 1, i32::MAX];
    faults.extend(beyond.map(X));
    faults.extend(beyond.map(Y));
    faults
}

#[test]
fn every_fault_alone() {
    let mut comparison = Comparison::new("judging, every fault alone");
    for m in 1..=8 {
        let answer = comparison.judge(&records(m), m, 240, 363);
        assert!(answer.is_on());
        for fault in faults(m) {
            let (leaves, told, x, y) = plant(m, &[fault]).expect("one fault can be had");
            let (number, spot) = fault.refusal(m);
            assert_eq!(comparison.judge(&leaves, told, x, y), Refused(number, spot), "m {m}, {fault:?}");
        }
    }
    assert!([9, 10, 11, 18].iter().all(|&number| comparison.tally.refused[number] > 0));
    comparison.report();
}

#[test]
fn every_two_faults() {
    let mut comparison = Comparison::new("judging, every two faults");
    let mut pairs = BTreeSet::new();
    for m in 1..=8 {
        let faults = faults(m);
        for (i, &one) in faults.iter().enumerate() {
            for &other in &faults[i + 1..] {
                let same_place = one.writes().is_some() && one.writes() == other.writes();
                let same_number =
                    matches!((one, other), (X(_), X(_)) | (Y(_), Y(_)) | (Pieces(_), Pieces(_)));
                if same_place || same_number || one.is_of_length() && other.is_of_length() {
                    continue;
                }
                let Some((leaves, told, x, y)) = plant(m, &[one, other]) else {
                    continue;
                };
                // After 18, numbers stand in the order of the checks, and spots in the order of one check.
                let (a, b) = (one.refusal(m), other.refusal(m));
                let (number, spot) = [a, b].into_iter().find(|r| r.0 == 18).unwrap_or(a.min(b));
                let answer = comparison.judge(&leaves, told, x, y);
                assert_eq!(answer, Refused(number, spot), "m {m}, {one:?}, {other:?}");
                pairs.insert((a.0.min(b.0), a.0.max(b.0)));
            }
        }
    }
    let each = [(9, 10), (9, 11), (9, 18), (10, 10), (10, 11), (10, 18), (11, 11), (11, 18)];
    assert_eq!(pairs, BTreeSet::from(each));
    comparison.report();
}

#[test]
fn awkward_numbers_everywhere() {
    let mut comparison = Comparison::new("judging, awkward numbers everywhere");
    for m in 1..=8 {
        let records = records(m);
        for x in AWKWARD {
            for y in AWKWARD {
                comparison.judge(&records, m, x, y);
            }
        }
        for index in 0..records.len() {
            for number in AWKWARD {
                let mut leaves = records.clone();
                leaves[index] = number;
                for (x, y) in [(240, 363), (0, 0), (-8, -6), (i32::MIN, 0), (number, -FARTHEST)] {
                    comparison.judge(&leaves, m, x, y);
                    comparison.judge(&leaves[..index], m, x, y);
                }
                for next in AWKWARD.into_iter().filter(|_| index + 1 < records.len()) {
                    leaves[index + 1] = next;
                    comparison.judge(&leaves, m, 0, 0);
                }
            }
        }
    }
    comparison.report();
}

#[test]
fn every_length_of_a_list() {
    let mut comparison = Comparison::new("judging, every length of a list");
    for m in 1..=8 {
        let leaves = records(m).repeat(8);
        for length in 0..=leaves.len() {
            let answer = comparison.judge(&leaves[..length], m, 240, 363);
            if length == 0 || length % record_length(m) != 0 {
                assert_eq!(answer, Refused(9, length as u64));
            } else {
                assert!(!matches!(answer, Refused(..)));
            }
        }
    }
    comparison.report();
}
