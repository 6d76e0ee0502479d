//! The degree of a curve: its check, and what follows from it, the fewest pieces and the depth of the last
//! halving.

use crate::refusal::Refusal;
use std::ops::RangeInclusive;

/// Degrees that are taken.
const DEGREES: RangeInclusive<i32> = 1..=5;

/// Check 2, then check 20, of the number that stands in an outline as a degree, with m pieces.
pub fn check_degree(number: i32, m: u32, index: usize) -> Result<usize, Refusal> {
    if !DEGREES.contains(&number) {
        return Err(Refusal::Degree { index });
    }
    let degree = number as usize;
    if m < fewest_pieces(degree) {
        return Err(Refusal::TooFewPieces { index });
    }
    Ok(degree)
}

/// The least m that a curve of a degree takes.
pub const fn fewest_pieces(degree: usize) -> u32 {
    if degree <= 3 {
        1
    } else {
        3
    }
}

/// The depth of the last halving of a curve of a degree.
pub const fn deepest(degree: usize) -> u32 {
    if degree <= 3 {
        8
    } else {
        4
    }
}

#[cfg(test)]
mod tests {
    use super::*;

    #[test]
    fn degrees_are_1_to_5_and_the_last_two_take_3_pieces_or_more() {
        for m in 1..=8 {
            for number in [i32::MIN, -1, 0, 6, 7, 256 + 3, i32::MAX] {
                assert_eq!(check_degree(number, m, 7), Err(Refusal::Degree { index: 7 }));
            }
            for number in 1..=3 {
                assert_eq!(check_degree(number, m, 7), Ok(number as usize));
            }
            for number in 4..=5 {
                let taken = if m < 3 { Err(Refusal::TooFewPieces { index: 7 }) } else { Ok(number as usize) };
                assert_eq!(check_degree(number, m, 7), taken);
            }
        }
    }
}
