//! The number of pieces of a leaf, m: its check, and the length of a record, which follows from it.

use crate::refusal::Refusal;
use std::ops::RangeInclusive;

/// Numbers of pieces that are taken.
const PIECES: RangeInclusive<u32> = 1..=8;

/// Check 18.
pub fn check_pieces(m: u32) -> Result<(), Refusal> {
    if PIECES.contains(&m) {
        Ok(())
    } else {
        Err(Refusal::Pieces)
    }
}

/// How many numbers a leaf record of m pieces has: the curve, the node, and a box of four numbers at each
/// of m + 1 break points.
pub const fn record_length(m: u32) -> usize {
    6 + 4 * m as usize
}

/// A function for the number of break points that m pieces have. There is one for each number, so that the
/// compiler knows the rows, the divisor and the length of a record.
macro_rules! for_pieces {
    ($m:expr, $function:ident) => {
        match $m {
            1 => $function::<2>,
            2 => $function::<3>,
            3 => $function::<4>,
            4 => $function::<5>,
            5 => $function::<6>,
            6 => $function::<7>,
            7 => $function::<8>,
            _ => $function::<9>,
        }
    };
}
pub(crate) use for_pieces;

#[cfg(test)]
mod tests {
    use super::*;

    #[test]
    fn pieces_are_1_to_8() {
        for m in [0, 9, 10, 256 + 3, (1 << 16) + 3, 1 << 31, u32::MAX] {
            assert_eq!(check_pieces(m), Err(Refusal::Pieces));
        }
        for m in 1..=8 {
            assert_eq!(check_pieces(m), Ok(()));
        }
    }

    fn break_points<const B: usize>() -> usize {
        B
    }

    #[test]
    fn there_is_one_more_break_point_than_pieces() {
        for m in 1..=8 {
            assert_eq!(for_pieces!(m, break_points)(), m + 1);
        }
    }

    #[test]
    fn three_pieces_have_the_record_of_document_01() {
        assert_eq!(record_length(3), 18);
        assert_eq!((record_length(1), record_length(8)), (10, 38));
    }
}
