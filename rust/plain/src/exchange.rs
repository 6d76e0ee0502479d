//! Exchanging one curve of an outline whose records are there.

use crate::band::{self, Report};
use crate::refusal::Refusal;

/// How many numbers a new curve has: a degree, and x and y of six points.
const NEW_CURVE: usize = 13;

/// Puts another curve in the place of the curve with a number, in an outline whose records are the first `given` numbers of
/// `records`: they become what banding the changed outline makes of the list. Numbers of the new curve past its degree are
/// not read. The checks of the old outline come first, all but 8, then 22 and 23, then those of the changed outline. Where
/// the answer is a refusal, every number stays as it was.
pub fn exchange(
    outline: &[i32],
    tolerance: i32,
    m: u32,
    number: usize,
    curve: [i32; NEW_CURVE],
    given: usize,
    records: &mut [i32],
) -> Result<Report, Refusal> {
    let (old, own) = band::banded(outline, tolerance, m)?;
    if number as u64 >= old.curves {
        return Err(Refusal::NoSuchCurve { number });
    }
    check_records(&own, given, records)?;
    band::band(&changed(outline, number, &curve), tolerance, m, records)
}

/// Check 23: the records given are the outline's own, and their count does not pass the list.
fn check_records(own: &[i32], given: usize, records: &[i32]) -> Result<(), Refusal> {
    let shown = &records[..given.min(records.len())];
    if let Some(index) = own.iter().zip(shown).position(|(a, b)| a != b) {
        return Err(Refusal::OtherRecords { index });
    }
    if given != own.len() || given > records.len() {
        return Err(Refusal::OtherRecords { index: own.len().min(shown.len()) });
    }
    Ok(())
}

/// An outline that passes its checks, with the numbers of a new curve in the place of those of one of its own.
fn changed(outline: &[i32], number: usize, curve: &[i32; NEW_CURVE]) -> Vec<i32> {
    let length = |degree: i32| 3 + 2 * degree as usize;
    let start = (0..number).fold(0, |at, _| at + length(outline[at]));
    let new = match curve[0] {
        degree @ 1..=5 => &curve[..length(degree)],
        // It is no degree, and is refused before a number after it is read.
        _ => &curve[..1],
    };
    [&outline[..start], new, &outline[start + length(outline[start])..]].concat()
}

#[cfg(test)]
mod tests {
    use super::*;

    /// Curve A of document 01 and its chord, which at T 44 have one leaf each.
    const BOW: [i32; 14] = [3, 0, 0, 10, 30, 20, 30, 30, 0, 1, 30, 0, 0, 0];
    const T: i32 = 44;

    /// Curves from (0 0) to (30 0): of two leaves, and of one. Numbers that are not read are the least there is.
    const HIGH: [i32; 13] = [2, 0, 0, 15, 120, 30, 0, MIN, MIN, MIN, MIN, MIN, MIN];
    const LINE: [i32; 13] = [1, 0, 0, 30, 0, MIN, MIN, MIN, MIN, MIN, MIN, MIN, MIN];
    const MIN: i32 = i32::MIN;

    /// The records of an outline in front of so many numbers more, all −7.
    fn lent(outline: &[i32], more: usize) -> Vec<i32> {
        let (_, mut records) = band::banded(outline, T, 3).expect("it is accepted");
        records.resize(records.len() + more, -7);
        records
    }

    /// Exchanges a curve of the bow, and bands the changed outline into the same list.
    fn both(number: usize, curve: [i32; 13], more: usize) -> Result<Report, Refusal> {
        let (mut records, mut anew) = (lent(&BOW, more), lent(&BOW, more));
        let answer = exchange(&BOW, T, 3, number, curve, 36, &mut records);
        assert_eq!(answer, band::band(&changed(&BOW, number, &curve), T, 3, &mut anew));
        assert_eq!(records, anew);
        answer
    }

    #[test]
    fn the_list_is_that_of_banding_the_changed_outline() {
        let report = |leaves| Ok(Report { curves: 2, leaves, nodes: 2 * leaves - 2 });
        assert_eq!(both(0, HIGH, 18), report(3));
        assert_eq!(both(0, HIGH, 17), Err(Refusal::TooFewRecords { leaves: 3 }));
        assert_eq!(both(0, LINE, 0), report(2));
        let back = [2, 30, 0, 15, -120, 0, 0, MIN, MIN, MIN, MIN, MIN, MIN];
        assert_eq!(both(1, back, 18), report(3));
    }

    #[test]
    fn fewer_leaves_leave_old_records_behind_them() {
        let outline = [&HIGH[..7], &BOW[9..]].concat();
        let mut records = lent(&outline, 1);
        let before = records.clone();
        let report = exchange(&outline, T, 3, 0, LINE, 54, &mut records);
        assert_eq!(report, Ok(Report { curves: 2, leaves: 2, nodes: 2 }));
        // The record of the second curve has moved, and stands where it was as well.
        assert_eq!((&records[18..36], &records[36..]), (&before[36..54], &before[36..]));
    }

    #[test]
    fn records_are_the_outlines_own() {
        let refusal = |given, length| {
            let mut records = lent(&BOW, 20);
            records.truncate(length);
            let refusal = exchange(&BOW, T, 3, 0, LINE, given, &mut records).expect_err("it is refused");
            assert_eq!(records, lent(&BOW, 20)[..length]);
            (refusal.number(), refusal.spot())
        };
        // The shortest of the count, the list and the outline's records.
        for (given, length, spot) in [
            (0, 56, 0),
            (35, 56, 35),
            (37, 56, 36),
            (usize::MAX, 56, 36),
            (36, 35, 35),
            (36, 0, 0),
            (7, 9, 7),
        ] {
            assert_eq!(refusal(given, length), (23, spot));
        }
        for at in 0..36 {
            let mut records = lent(&BOW, 0);
            records[at] ^= 1;
            let refused = exchange(&BOW, T, 3, 0, LINE, 36, &mut records);
            assert_eq!(refused, Err(Refusal::OtherRecords { index: at }));
            // Before the count is reached.
            let refused = exchange(&BOW, T, 3, 0, LINE, at, &mut records);
            assert_eq!(refused, Err(Refusal::OtherRecords { index: at }));
        }
    }

    #[test]
    fn checks_come_in_their_order() {
        let refusal = |outline: &[i32], tolerance, m, number, curve, given| {
            let refusal = exchange(outline, tolerance, m, number, curve, given, &mut lent(&BOW, 0));
            let refusal = refusal.expect_err("it is refused");
            (refusal.number(), refusal.spot())
        };
        let bad = [6; 13];
        assert_eq!(refusal(&[], 1, 9, 2, bad, 9), (18, 0));
        assert_eq!(refusal(&[], 1, 3, 2, bad, 9), (1, 0));
        assert_eq!(refusal(&[], T, 3, 2, bad, 9), (6, 0));
        assert_eq!(refusal(&BOW[..13], T, 3, 2, bad, 9), (3, 13));
        let wide = [3, 0, 0, 0, 1_048_576, 0, 1_048_576, 0, 0];
        assert_eq!(refusal(&wide, 2, 3, 2, bad, 9), (7, 256));
        assert_eq!(refusal(&BOW, T, 3, 2, bad, 9), (22, 2));
        assert_eq!(refusal(&BOW, T, 3, 1, bad, 9), (23, 9));
        assert_eq!(refusal(&BOW, T, 3, 1, bad, 36), (2, 9));
        // 17 of the curve after, whose degree then stands at index 5, and of the new one.
        let short = [1, 0, 0, 30, 1, 0, 0, 0, 0, 0, 0, 0, 0];
        assert_eq!(refusal(&BOW, T, 3, 0, short, 36), (17, 5));
        assert_eq!(refusal(&BOW, T, 3, 1, short, 36), (17, 9));
    }

    #[test]
    fn degrees_4_and_5_take_three_pieces() {
        let mut records = vec![0; 100];
        let leaves = band::band(&BOW, 400, 2, &mut records).expect("it is accepted").leaves;
        for degree in [4, 5] {
            let refused = exchange(&BOW, 400, 2, 1, [degree; 13], 14 * leaves as usize, &mut records);
            assert_eq!(refused, Err(Refusal::TooFewPieces { index: 9 }));
        }
    }
}
