//! The method that the engine replaces: a band from samples of each curve in binary64, packed to whole
//! sixteenths by cutting towards zero.
//!
//! To be compared with the engine it gets the number of leaves that the engine has for each curve, makes as
//! many of three straight pieces each, and writes the same records. Its pieces are equally long in the
//! parameter. The band of a piece is its chord, moved by the least and by the largest deviation of the
//! samples in it.

/// The number of straight pieces of a leaf: three, as the method has it.
pub const M: u32 = 3;

/// How many numbers its records have.
pub const RECORD: usize = contour_band::record_length(M);

/// How many parameters each curve is sampled at, from 0 to 1.
pub const SAMPLES: usize = 1_000;

/// How a bound becomes a whole number.
#[derive(Debug, Clone, Copy, PartialEq, Eq)]
pub enum Packing {
    /// As it was done: the fraction is dropped.
    TowardsZero,
    /// A low is rounded down and a high up, so that what is left is the fault of the samples.
    Outwards,
}

/// Writes the records of a band with `leaves[i]` leaves for curve i. The outline is one that passes the
/// checks, and the records have room.
pub fn band(outline: &[i32], leaves: &[usize], packing: Packing, records: &mut [i32]) {
    let mut rest = outline;
    let mut records = records.chunks_exact_mut(RECORD);
    let mut pieces = Pieces::default();
    for (number, &leaves) in leaves.iter().enumerate() {
        let (points, after) = rest[1..].split_at(2 * (rest[0] as usize + 1));
        rest = after;
        pieces.sample(&Curve::new(points), 3 * leaves);
        for (leaf, record) in records.by_ref().take(leaves).enumerate() {
            record[0] = number as i32;
            // A leaf of this method is no node: it is numbered.
            record[1] = leaf as i32 + 1;
            for (i, place) in record[2..].chunks_exact_mut(4).enumerate() {
                place.copy_from_slice(&pieces.packed(3 * leaf + i, packing));
            }
        }
    }
}

/// A curve in sixteenths, as the coefficients of 1, t, t² and t³ of each coordinate.
struct Curve([[f64; 4]; 2]);

impl Curve {
    fn new(points: &[i32]) -> Curve {
        Curve([0, 1].map(|coordinate| {
            let c = |i: usize| 16.0 * f64::from(points[2 * i + coordinate]);
            match points.len() / 2 {
                2 => [c(0), c(1) - c(0), 0.0, 0.0],
                3 => [c(0), 2.0 * (c(1) - c(0)), c(0) - 2.0 * c(1) + c(2), 0.0],
                4 => [
                    c(0),
                    3.0 * (c(1) - c(0)),
                    3.0 * (c(0) - 2.0 * c(1) + c(2)),
                    c(3) - c(0) + 3.0 * (c(1) - c(2)),
                ],
                points => panic!("the method has no curves of {points} points"),
            }
        }))
    }

    fn at(&self, t: f64) -> [f64; 2] {
        self.0.map(|[a, b, c, d]| a + t * (b + t * (c + t * d)))
    }
}

/// The pieces of a curve: its points at their ends, and the deviations of the samples from each chord.
#[derive(Default)]
struct Pieces {
    ends: Vec<[f64; 2]>,
    /// The least and the largest deviation, in x and in y. The ends of a chord deviate by 0.
    deviations: Vec<[(f64, f64); 2]>,
}

impl Pieces {
    fn sample(&mut self, curve: &Curve, count: usize) {
        let number = count as f64;
        self.ends.clear();
        self.ends.extend((0..=count).map(|i| curve.at(i as f64 / number)));
        self.deviations.clear();
        self.deviations.resize(count, [(0.0, 0.0); 2]);
        for sample in 0..SAMPLES {
            let t = sample as f64 / (SAMPLES - 1) as f64;
            let piece = ((t * number) as usize).min(count - 1);
            let along = t * number - piece as f64;
            let (from, to, at) = (self.ends[piece], self.ends[piece + 1], curve.at(t));
            for (coordinate, (low, high)) in self.deviations[piece].iter_mut().enumerate() {
                let (from, to) = (from[coordinate], to[coordinate]);
                let deviation = at[coordinate] - (from + along * (to - from));
                *low = low.min(deviation);
                *high = high.max(deviation);
            }
        }
    }

    /// The box at an end of pieces: wide enough for the pieces on either side.
    fn packed(&self, end: usize, packing: Packing) -> [i32; 4] {
        let before = self.deviations[end.saturating_sub(1)];
        let after = self.deviations[end.min(self.deviations.len() - 1)];
        let [x, y] = [0, 1].map(|coordinate| {
            let (before, after, at) = (before[coordinate], after[coordinate], self.ends[end][coordinate]);
            (at + before.0.min(after.0), at + before.1.max(after.1))
        });
        match packing {
            Packing::TowardsZero => [x.0, x.1, y.0, y.1],
            Packing::Outwards => [x.0.floor(), x.1.ceil(), y.0.floor(), y.1.ceil()],
        }
        .map(|bound| bound as i32)
    }
}

#[cfg(test)]
mod tests {
    use super::*;

    #[test]
    fn a_line_is_its_own_band() {
        let mut records = [7; 19];
        band(&[1, 0, 0, 30, 60], &[1], Packing::Outwards, &mut records);
        // Deviations are rounding errors at most, which outwards makes a sixteenth.
        let boxes = [[0, 0, 0, 0], [160, 160, 320, 320], [320, 320, 640, 640], [480, 480, 960, 960]];
        for (i, bound) in boxes.concat().into_iter().enumerate() {
            assert!((records[2 + i] - bound).abs() <= 1, "{records:?}");
        }
        assert_eq!((records[0], records[1], records[18]), (0, 1, 7));
    }

    #[test]
    fn a_low_below_zero_is_cut_inwards() {
        // y at thirds is -16/3 and -32/3.
        let (mut cut, mut outwards) = ([0; 18], [0; 18]);
        band(&[1, 0, 0, 0, -1], &[1], Packing::TowardsZero, &mut cut);
        band(&[1, 0, 0, 0, -1], &[1], Packing::Outwards, &mut outwards);
        assert_eq!((cut[8], outwards[8]), (-5, -6));
        assert_eq!((cut[12], outwards[12]), (-10, -11));
    }
}
