//! The checks of a leaf list and a point.

use crate::pieces::record_length;
use crate::refusal::Refusal;
use std::ops::RangeInclusive;

/// Curve numbers that a record may have.
const CURVES: RangeInclusive<i32> = 0..=4_095;

/// Nodes that a record may have.
const NODES: RangeInclusive<i32> = 1..=511;

/// Box numbers and point coordinates that are taken, in sixteenths of a stage unit.
const SIXTEENTHS: RangeInclusive<i32> = -536_870_912..=536_870_912;

/// The records of a leaf list with B break points to a leaf.
pub fn records<const B: usize>(leaves: &[i32]) -> impl Iterator<Item = &[i32]> {
    leaves.chunks_exact(record_length(B as u32 - 1))
}

/// Check 9, then check 10, of a leaf list with B break points to a leaf.
pub fn check_leaves<const B: usize>(leaves: &[i32]) -> Result<(), Refusal> {
    let (length, of_record) = (leaves.len(), record_length(B as u32 - 1));
    if length == 0 || length % of_record != 0 {
        return Err(Refusal::LeafListLength { length });
    }
    match records::<B>(leaves).position(|record| !is_good(record)) {
        None => Ok(()),
        Some(leaf) => {
            let start = of_record * leaf;
            Err(Refusal::LeafListNumber { index: start + first_bad(&leaves[start..][..of_record]) })
        }
    }
}

/// Check 11.
pub fn check_point(x: i32, y: i32) -> Result<(), Refusal> {
    if !SIXTEENTHS.contains(&x) {
        Err(Refusal::PointX)
    } else if !SIXTEENTHS.contains(&y) {
        Err(Refusal::PointY)
    } else {
        Ok(())
    }
}

/// Whether a record has no bad number. A low that is not above its high needs only its lower limit
/// looked at, and the high its upper one; nothing here branches.
fn is_good(record: &[i32]) -> bool {
    let boxes = record[2..].chunks_exact(2).fold(true, |good, bounds| {
        let (low, high) = (bounds[0], bounds[1]);
        good & (*SIXTEENTHS.start() <= low) & (low <= high) & (high <= *SIXTEENTHS.end())
    });
    CURVES.contains(&record[0]) & NODES.contains(&record[1]) & boxes
}

/// The place of the first bad number of a record that has one.
fn first_bad(record: &[i32]) -> usize {
    let is_bad = |&place: &usize| match place {
        0 => !CURVES.contains(&record[0]),
        1 => !NODES.contains(&record[1]),
        _ => !SIXTEENTHS.contains(&record[place]) || place % 2 == 0 && record[place] > record[place + 1],
    };
    (0..record.len()).find(is_bad).expect("the record has a bad number")
}

#[cfg(test)]
mod tests {
    use super::*;
    use crate::pieces::for_pieces;

    const FARTHEST: i32 = 536_870_912;

    /// Two records of m pieces, with the first and the last curve and node, and bounds that rise.
    fn two_records(m: u32) -> Vec<i32> {
        let numbers = 4 * (m as i32 + 1);
        let first = [0, 1].into_iter().chain((0..numbers).map(|n| n - 9));
        first.chain([4_095, 511]).chain((0..numbers).map(|n| 5 * n - 40)).collect()
    }

    fn check(m: u32, leaves: &[i32]) -> Result<(), Refusal> {
        for_pieces!(m, check_leaves)(leaves)
    }

    /// The answer with another number at an index.
    fn with(m: u32, index: usize, number: i32) -> Result<(), Refusal> {
        let mut leaves = two_records(m);
        leaves[index] = number;
        check(m, &leaves)
    }

    fn bad(index: usize) -> Result<(), Refusal> {
        Err(Refusal::LeafListNumber { index })
    }

    /// The index of each low of two records, with the numbers of the low and of its high.
    fn lows(m: u32) -> Vec<(usize, i32, i32)> {
        let (leaves, record) = (two_records(m), record_length(m));
        let lows = (0..leaves.len()).step_by(2).filter(|i| i % record != 0);
        lows.map(|low| (low, leaves[low], leaves[low + 1])).collect()
    }

    #[test]
    fn a_length_is_a_multiple_of_a_records_and_not_0() {
        for m in 1..=8 {
            let leaves = two_records(m);
            for length in 0..=leaves.len() {
                let whole = [6 + 4 * m as usize, 12 + 8 * m as usize].contains(&length);
                let expected = if whole { Ok(()) } else { Err(Refusal::LeafListLength { length }) };
                assert_eq!(check(m, &leaves[..length]), expected, "m {m}");
            }
        }
    }

    #[test]
    fn curves_and_nodes_have_their_ranges() {
        for (m, start) in (1..=8).flat_map(|m| [(m, 0), (m, record_length(m))]) {
            for curve in [i32::MIN, -1, 4_096, i32::MAX] {
                assert_eq!(with(m, start, curve), bad(start));
            }
            for node in [i32::MIN, -1, 0, 512, i32::MAX] {
                assert_eq!(with(m, start + 1, node), bad(start + 1));
            }
            for curve in [0, 1, 63, 64, 4_095] {
                assert_eq!(with(m, start, curve), Ok(()));
            }
            for node in [1, 2, 511] {
                assert_eq!(with(m, start + 1, node), Ok(()));
            }
        }
    }

    #[test]
    fn a_low_above_its_high_is_named_by_the_lows_index() {
        for m in 1..=8 {
            for (low, low_number, high_number) in lows(m) {
                assert_eq!(with(m, low, high_number + 1), bad(low));
                assert_eq!(with(m, low + 1, low_number - 1), bad(low));
                assert_eq!(with(m, low + 1, -FARTHEST - 1), bad(low));
                assert_eq!(with(m, low + 1, i32::MIN), bad(low));
                assert_eq!(with(m, low, high_number), Ok(()));
                assert_eq!(with(m, low + 1, low_number), Ok(()));
            }
        }
    }

    #[test]
    fn a_box_number_beyond_the_range_is_named_by_its_own_index() {
        for m in 1..=8 {
            for (low, ..) in lows(m) {
                for beyond in [i32::MIN, -FARTHEST - 1, FARTHEST + 1, i32::MAX] {
                    assert_eq!(with(m, low, beyond), bad(low));
                }
                for beyond in [FARTHEST + 1, i32::MAX] {
                    assert_eq!(with(m, low + 1, beyond), bad(low + 1));
                }
                assert_eq!(with(m, low, -FARTHEST), Ok(()));
                assert_eq!(with(m, low + 1, FARTHEST), Ok(()));
            }
        }
    }

    #[test]
    fn the_first_of_several_bad_numbers_is_named() {
        for m in 1..=8 {
            let mut leaves = two_records(m);
            for index in (0..leaves.len()).rev() {
                // Every number from here on is bad; a low as well as its high.
                leaves[index] = i32::MAX;
                assert_eq!(check(m, &leaves), bad(index));
            }
        }
    }

    #[test]
    fn the_x_of_a_point_is_tried_first() {
        for beyond in [i32::MIN, -FARTHEST - 1, FARTHEST + 1, i32::MAX] {
            assert_eq!(check_point(beyond, 0), Err(Refusal::PointX));
            assert_eq!(check_point(0, beyond), Err(Refusal::PointY));
            assert_eq!(check_point(beyond, beyond), Err(Refusal::PointX));
        }
        for far in [-FARTHEST, FARTHEST] {
            assert_eq!(check_point(far, -far), Ok(()));
        }
    }
}
