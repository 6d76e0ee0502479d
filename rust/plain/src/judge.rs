//! Judging: whether a point lies on the covers of a list of leaf records.

use crate::band::{band, Report};
use crate::cover;
use crate::leaf_list;
use crate::pieces::{check_pieces, for_pieces, record_length};
use crate::refusal::Refusal;

/// What judging says of a point.
#[derive(Debug, Clone, Copy, PartialEq, Eq)]
pub enum Judgement {
    /// A cover holds the point.
    On {
        /// The number of its record, from 0.
        leaf: usize,
        /// The cover of that record, 0 to m − 1.
        cover: usize,
    },
    /// No cover of any record holds the point.
    Off,
}

/// Judges a point in sixteenths of a stage unit against a list of leaf records of m pieces. Names the first
/// record, and the first cover of it, that holds the point.
pub fn judge(leaves: &[i32], m: u32, x: i32, y: i32) -> Result<Judgement, Refusal> {
    check_pieces(m)?;
    for_pieces!(m, judge_leaves)(leaves, x, y)
}

/// Judges a list of points, x and y of each, against a list of leaf records of m pieces, and writes three numbers for each to
/// the lent list. Returns how many points there are; whatever is refused, the list stays as it was.
pub fn judge_points(leaves: &[i32], m: u32, points: &[i32], answers: &mut [i64]) -> Result<usize, Refusal> {
    judge(leaves, m, 0, 0)?;
    if points.len() % 2 != 0 {
        return Err(Refusal::OddPoints { length: points.len() });
    }
    let count = points.len() / 2;
    if answers.len() < 3 * count {
        return Err(Refusal::TooFewRecords { leaves: count });
    }
    for (point, three) in points.chunks_exact(2).zip(answers.chunks_exact_mut(3)) {
        three.copy_from_slice(&match judge(leaves, m, point[0], point[1]) {
            Ok(Judgement::On { leaf, cover }) => [1, leaf as i64, cover as i64],
            Ok(Judgement::Off) => [0; 3],
            Err(refusal) => [i64::from(refusal.number()), refusal.spot() as i64, 0],
        });
    }
    Ok(count)
}

/// Judges against records with B break points, which have B − 1 covers. Checks 9, 10 and 11.
fn judge_leaves<const B: usize>(leaves: &[i32], x: i32, y: i32) -> Result<Judgement, Refusal> {
    leaf_list::check_leaves::<B>(leaves)?;
    leaf_list::check_point(x, y)?;
    for (leaf, record) in leaf_list::records::<B>(leaves).enumerate() {
        let held = |&i: &usize| cover::holds(box_at(record, i), box_at(record, i + 1), x, y);
        if let Some(cover) = (0..B - 1).find(held) {
            return Ok(Judgement::On { leaf, cover });
        }
    }
    Ok(Judgement::Off)
}

/// Bands an outline into the lent list, with m pieces to a leaf, and judges a point against exactly the
/// records written. The point is checked last; whatever is refused, the list stays as it was.
pub fn band_and_judge(
    outline: &[i32],
    tolerance: i32,
    m: u32,
    records: &mut [i32],
    x: i32,
    y: i32,
) -> Result<(Report, Judgement), Refusal> {
    let mut changed = records.to_vec();
    let report = band(outline, tolerance, m, &mut changed)?;
    let written = record_length(m) * report.leaves as usize;
    let judgement = judge(&changed[..written], m, x, y)?;
    records.copy_from_slice(&changed);
    Ok((report, judgement))
}

/// The box of a record at break point `i`.
fn box_at(record: &[i32], i: usize) -> &[i32; 4] {
    record[2 + 4 * i..][..4].try_into().expect("a box has four numbers")
}

#[cfg(test)]
mod tests {
    use super::*;

    const CURVE_A: [i32; 9] = [3, 0, 0, 10, 30, 20, 30, 30, 0];

    const BEYOND: i32 = 536_870_913;

    /// The records of an outline, without the rest of a list.
    fn records(outline: &[i32], tolerance: i32, m: u32) -> Vec<i32> {
        let length = record_length(m);
        let mut records = vec![0; length * 256];
        let report = band(outline, tolerance, m, &mut records).expect("the outline is accepted");
        records.truncate(length * report.leaves as usize);
        records
    }

    fn on(leaf: usize, cover: usize) -> Result<Judgement, Refusal> {
        Ok(Judgement::On { leaf, cover })
    }

    #[test]
    fn the_documents_points_of_curve_a() {
        let leaves = records(&CURVE_A, 44, 3);
        assert_eq!(judge(&leaves, 3, 240, 363), on(0, 1));
        assert_eq!(judge(&leaves, 3, 240, 364), Ok(Judgement::Off));
    }

    #[test]
    fn every_record_and_every_cover_is_tried() {
        let leaves = records(&CURVE_A, 43, 3);
        assert_eq!(judge(&leaves, 3, 0, 0), on(0, 0));
        assert_eq!(judge(&leaves, 3, 120, 271), on(0, 1));
        assert_eq!(judge(&leaves, 3, 200, 350), on(0, 2));
        assert_eq!(judge(&leaves, 3, 280, 350), on(1, 0));
        assert_eq!(judge(&leaves, 3, 360, 271), on(1, 1));
        assert_eq!(judge(&leaves, 3, 480, 10), on(1, 2));
        assert_eq!(judge(&leaves, 3, 480, 11), Ok(Judgement::Off));
        assert_eq!(judge(&leaves, 3, 481, 10), Ok(Judgement::Off));
        assert_eq!(judge(&leaves, 3, 240, 200), Ok(Judgement::Off));
    }

    #[test]
    fn a_record_of_m_pieces_has_m_covers() {
        // Two records whose boxes are single points: x 0, 10, .. at y 0, and the same at y 1.
        for m in 1..=8 {
            let last = m as i32;
            let record = |y| [0, 1].into_iter().chain((0..=last).flat_map(move |i| [10 * i, 10 * i, y, y]));
            let leaves: Vec<i32> = record(0).chain(record(1)).collect();
            for leaf in 0..2 {
                for cover in 0..last {
                    assert_eq!(judge(&leaves, m, 10 * cover + 5, leaf), on(leaf as usize, cover as usize));
                }
                // A point between two covers is the first one's.
                for i in 1..=last {
                    assert_eq!(judge(&leaves, m, 10 * i, leaf), on(leaf as usize, i as usize - 1));
                }
                assert_eq!(judge(&leaves, m, 10 * last + 1, leaf), Ok(Judgement::Off));
                assert_eq!(judge(&leaves, m, -1, leaf), Ok(Judgement::Off));
            }
        }
    }

    #[test]
    fn curve_points_are_on() {
        // At eighths of the parameter, A's values in sixteenths are whole numbers: x 60 i, and
        // 1440 t (1 - t) for y.
        for m in 1..=8 {
            for tolerance in [2, 3, 10, 43, 44, 1_000] {
                let leaves = records(&CURVE_A, tolerance, m);
                for i in 0..=8 {
                    let judged = judge(&leaves, m, 60 * i, 1440 * i * (8 - i) / 64);
                    assert!(matches!(judged, Ok(Judgement::On { .. })), "{i}/8 at {tolerance}, m {m}");
                }
            }
        }
    }

    #[test]
    fn points_of_curves_of_degrees_4_and_5_are_on() {
        // At the middle 16 and 32 times the curve are sums of control values by 1 4 6 4 1 and 1 5 10 10 5 1.
        let quartic = [4, 0, 0, 30, 90, -20, 7, 66, -50, 100, 1];
        let quintic = [5, 0, 0, 30, 90, -20, 7, 66, -50, 99, 20, 41, 2];
        let points: [(&[i32], [i32; 2], [i32; 2]); 2] =
            [(&quartic, [364, 203], [1600, 16]), (&quintic, [573, 61], [656, 32])];
        for (outline, middle, end) in points {
            for m in 3..=8 {
                for tolerance in [20, 100, 1_000, 100_000] {
                    let leaves = records(outline, tolerance, m);
                    for [x, y] in [[0, 0], middle, end] {
                        let judged = judge(&leaves, m, x, y);
                        assert!(
                            matches!(judged, Ok(Judgement::On { .. })),
                            "({x} {y}) at {tolerance}, m {m}"
                        );
                    }
                }
            }
        }
    }

    #[test]
    fn records_need_no_order_and_no_link_to_a_curve() {
        // The same curve and node twice, and boxes that no curve has.
        let far = [63, 511, 9, 9, 9, 9, -9, -9, 9, 9, -9, -9, -9, -9, 9, 9, -9, -9];
        let near = [63, 511, 0, 1, 0, 1, 5, 6, 0, 1, 0, 1, 0, 1, 5, 6, 0, 1];
        let leaves = [far, near].concat();
        assert_eq!(judge(&leaves, 3, 3, 1), on(1, 0));
        assert_eq!(judge(&leaves, 3, 0, 9), on(0, 0));
        assert_eq!(judge(&leaves, 3, -9, 0), on(0, 1));
        assert_eq!(judge(&leaves, 3, 0, -9), on(0, 2));
        // A record's last box and its first are no cover.
        assert_eq!(judge(&leaves, 3, 9, 0), Ok(Judgement::Off));
    }

    #[test]
    fn a_point_is_refused_after_banding_and_leaves_the_list() {
        const RECORD: usize = 18;
        let mut lent = [7; 2 * RECORD];
        let mut call = |tolerance, m, length: usize, x| {
            let answer = band_and_judge(&CURVE_A, tolerance, m, &mut lent[..length], x, 363);
            (answer.map(|(report, judgement)| (report.leaves, judgement)), lent == [7; 2 * RECORD])
        };
        assert_eq!(call(1, 0, 0, BEYOND), (Err(Refusal::Pieces), true));
        assert_eq!(call(1, 3, 0, BEYOND), (Err(Refusal::Tolerance), true));
        assert_eq!(call(43, 3, 35, BEYOND), (Err(Refusal::TooFewRecords { leaves: 2 }), true));
        assert_eq!(call(43, 3, 36, BEYOND), (Err(Refusal::PointX), true));
        assert_eq!(call(44, 3, 36, 536_870_912), (Ok((1, Judgement::Off)), false));
        assert_eq!(lent[..RECORD], records(&CURVE_A, 44, 3));
        assert_eq!(lent[RECORD..], [7; RECORD]);
    }

    #[test]
    fn banding_with_judging_is_one_after_the_other() {
        let points = (0..=8).flat_map(|i| (0..40).map(move |j| (60 * i, 10 * j)));
        for (m, (x, y)) in (1..=8).flat_map(|m| points.clone().map(move |point| (m, point))) {
            let leaves = records(&CURVE_A, 20, m);
            let mut lent = vec![7; leaves.len() + 5];
            let (report, judgement) = band_and_judge(&CURVE_A, 20, m, &mut lent, x, y).expect("all passes");
            assert_eq!(record_length(m) * report.leaves as usize, leaves.len());
            assert_eq!((&lent[..leaves.len()], &lent[leaves.len()..]), (&leaves[..], &[7; 5][..]));
            assert_eq!(Ok(judgement), judge(&leaves, m, x, y));
        }
    }

    #[test]
    fn checks_18_9_10_and_11_come_in_this_order() {
        let refused = |leaves: &[i32], m, x, y| {
            let refusal = judge(leaves, m, x, y).expect_err("something is refused");
            (refusal.number(), refusal.spot())
        };
        for m in 1..=8 {
            let mut leaves = records(&CURVE_A, 1_000, m);
            assert_eq!(refused(&leaves, m, BEYOND, BEYOND), (11, 0));
            assert_eq!(refused(&leaves, m, 0, -BEYOND), (11, 1));
            leaves[7] = BEYOND;
            assert_eq!(refused(&leaves, m, BEYOND, 0), (10, 7));
            leaves.push(0);
            assert_eq!(refused(&leaves, m, BEYOND, 0), (9, 7 + 4 * u64::from(m)));
            assert_eq!(refused(&[], m, i32::MIN, i32::MIN), (9, 0));
            for none in [0, 9, 1 << 31, u32::MAX] {
                assert_eq!(refused(&leaves, none, BEYOND, 0), (18, 0));
                assert_eq!(refused(&[], none, 0, 0), (18, 0));
            }
        }
    }

    #[test]
    fn records_of_another_m_are_another_list() {
        // Five records of one piece have the length of no record of three; nine have that of five.
        let leaves = [0, 1, 0, 0, 0, 0, 9, 9, 9, 9].repeat(9);
        assert_eq!(judge(&leaves[..50], 3, 5, 5), Err(Refusal::LeafListLength { length: 50 }));
        // Read so, a bound 0 stands for the node of the fourth.
        assert_eq!(judge(&leaves, 3, 5, 5), Err(Refusal::LeafListNumber { index: 55 }));
        assert_eq!(judge(&leaves, 1, 5, 5), on(0, 0));
    }
}
