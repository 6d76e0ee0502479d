//! The leaves and the points that the engines judge.

use crate::outlines::{arches, cubics};
use contour_band::record_length;

/// How many leaves the points are judged against.
pub const LEAVES: usize = 1_000;

/// How many points are judged.
pub const POINTS: usize = 10_000;

/// The tolerance of the band, in sixteenths of a stage unit, with m pieces. At each the 64 cubic curves
/// have about as many leaves.
fn tolerance(m: u32) -> i32 {
    [1_551, 402, 188, 101, 65, 46, 35, 28][m as usize - 1]
}

/// Leaf records of m pieces.
pub struct Leaves {
    /// The records.
    pub records: Vec<i32>,
    /// The number of pieces of each.
    pub m: u32,
}

impl Leaves {
    /// Puts the records in another order, in which no neighbours stay together.
    pub fn scatter(&mut self) {
        let length = record_length(self.m);
        let count = self.records.len() / length;
        // The step is prime and divides no count that is used here, so each record comes once.
        let record = |i: usize| &self.records[length * (7_919 * i % count)..][..length];
        self.records = (0..count).map(record).collect::<Vec<_>>().concat();
    }
}

/// A point in sixteenths of a stage unit.
pub type Point = (i32, i32);

/// The first records of 64 cubic curves with m pieces.
pub fn leaves(m: u32) -> Leaves {
    let mut records = vec![0; record_length(m) * 256 * 64];
    let report =
        contour_band::band(&cubics(), tolerance(m), m, &mut records).expect("the outline is accepted");
    assert!(report.leaves >= LEAVES, "{} leaves with m {m}", report.leaves);
    records.truncate(record_length(m) * LEAVES);
    Leaves { records, m }
}

/// 256 records of three pieces for each of so many quadratic arches side by side, a multiple of 64: those of 64 arches,
/// each time farther to the right and with the next curve numbers.
pub fn many(arches_in_all: usize) -> Leaves {
    const M: u32 = 3;
    let mut records = vec![0; record_length(M) * 256 * 64];
    contour_band::band(&arches(8), 44, M, &mut records).expect("the outline is accepted");
    let first = records.clone();
    for block in 1..arches_in_all as i32 / 64 {
        for record in first.chunks_exact(record_length(M)) {
            let start = records.len();
            records.extend(record);
            records[start] += 64 * block;
            for b in records[start + 2..].chunks_exact_mut(4) {
                b[0] += 16 * 64_000 * block;
                b[1] += 16 * 64_000 * block;
            }
        }
    }
    Leaves { records, m: M }
}

/// So many flat records of m pieces, 256 for each curve number in turn.
pub fn flat(count: usize, m: u32) -> Leaves {
    let mut records = vec![0; record_length(m) * count];
    for (i, record) in records.chunks_exact_mut(record_length(m)).enumerate() {
        record[..2].copy_from_slice(&[i as i32 / 256, 256 + i as i32 % 256]);
    }
    Leaves { records, m }
}

/// A mixture of two boxes of a leaf. Leaves, covers and fractions change with `i` in great steps.
fn mixture(leaves: &Leaves, i: usize) -> [i32; 4] {
    let length = record_length(leaves.m);
    let count = leaves.records.len() / length;
    let record = &leaves.records[length * (617 * count / 1_000 * i % count)..][..length];
    let start = 2 + 4 * (i % leaves.m as usize);
    let part = (7_919 * i % 1_001) as i64;
    [0, 1, 2, 3].map(|n| {
        let (from, to) = (i64::from(record[start + n]), i64::from(record[start + n + 4]));
        (from + (to - from) * part / 1_000) as i32
    })
}

/// Points in the middle of a cover.
pub fn near(leaves: &Leaves) -> Vec<Point> {
    let middle = |i| {
        let [x_low, x_high, y_low, y_high] = mixture(leaves, i);
        ((x_low + x_high) / 2, (y_low + y_high) / 2)
    };
    (0..POINTS).map(middle).collect()
}

/// Points beside a cover: to the right of it and above it by up to twice the tolerance. Some of them
/// are on another cover.
pub fn beside(leaves: &Leaves) -> Vec<Point> {
    let off = |i| {
        let [_, x_high, _, y_high] = mixture(leaves, i);
        let by = 1 + (i as i32 * 31) % (2 * tolerance(leaves.m));
        (x_high + by, y_high + by)
    };
    (0..POINTS).map(off).collect()
}

/// Points all over the stage.
pub fn far() -> Vec<Point> {
    let across = |i: usize, step: usize| (i * step % (1 << 25)) as i32 - (1 << 24);
    (0..POINTS).map(|i| (across(i, 2_654_435_761), across(i, 40_503_217))).collect()
}

/// Every third point of each.
pub fn mixed(leaves: &Leaves) -> Vec<Point> {
    let each = [near(leaves), beside(leaves), far()];
    (0..POINTS).map(|i| each[i % 3][i]).collect()
}

/// Points that are refused: an engine then has checked the leaves, and does nothing more.
pub fn refused() -> Vec<Point> {
    vec![(contour_band::FARTHEST + 1, 0); POINTS]
}
