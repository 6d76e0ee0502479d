//! Numbers of pieces, in range and out of it.

use crate::random::Random;
use std::ops::RangeInclusive;

/// Numbers of pieces that no check passes: next to the range, the like of 3 in fewer bits, and what negative
/// numbers become.
pub const WRONG: [u32; 8] = [0, 9, 10, 256 + 3, 65_536 + 3, 1 << 31, u32::MAX - 2, u32::MAX];

/// A number of pieces that passes.
pub fn pieces(random: &mut Random) -> u32 {
    1 + random.below(8) as u32
}

/// A number of pieces that curves of a degree take.
pub fn pieces_for(random: &mut Random, degree: i32) -> u32 {
    if degree <= 3 {
        pieces(random)
    } else {
        3 + random.below(6) as u32
    }
}

/// The degrees that take m pieces.
pub fn degrees(m: u32) -> RangeInclusive<i32> {
    1..=if m < 3 { 3 } else { 5 }
}

/// Every degree with every m that it takes.
pub fn settings() -> impl Iterator<Item = (i32, u32)> {
    (1..=8).flat_map(|m| degrees(m).map(move |degree| (degree, m)))
}

/// Another number of pieces: mostly one that does not pass.
pub fn damage(random: &mut Random, m: &mut u32) {
    *m = if random.one_in(4) { pieces(random) } else { random.pick(&WRONG) };
}
