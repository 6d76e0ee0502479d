//! Banding: the walk of an outline's curves and the records of its leaves.

use crate::binary64;
use crate::curve::Curve;
use crate::degree::deepest;
use crate::enclosure::BoxBounds;
use crate::outline;
use crate::pieces::{check_pieces, for_pieces, record_length};
use crate::refusal::Refusal;
use crate::spline;

/// What banding counted.
#[derive(Debug, Clone, Copy, PartialEq, Eq)]
pub struct Report {
    /// Curves of the outline.
    pub curves: u64,
    /// Leaves, which is also the number of records written.
    pub leaves: u64,
    /// Nodes that the walk met.
    pub nodes: u64,
}

/// What a caller takes of an outline.
#[derive(Debug, Clone, Copy)]
pub struct Most {
    /// The most curves.
    pub curves: usize,
    /// The most leaves.
    pub leaves: usize,
}

/// What a caller takes who gives lists: leaves as they come.
const LISTS: Most = Most { curves: outline::MOST_CURVES, leaves: usize::MAX };

/// What the bench station takes.
const STATION: Most = Most { curves: 64, leaves: 128 };

/// Writes the leaf records of an outline, at a tolerance in sixteenths and with m pieces to a leaf, to the
/// front of `records`. Numbers past them stay as they were, and so do all where the answer is a refusal.
pub fn band(outline: &[i32], tolerance: i32, m: u32, records: &mut [i32]) -> Result<Report, Refusal> {
    band_most(outline, LISTS, tolerance, m, records)
}

/// The same for the bench station, which takes 64 curves and 128 leaves.
pub fn station_band(outline: &[i32], tolerance: i32, m: u32, records: &mut [i32]) -> Result<Report, Refusal> {
    band_most(outline, STATION, tolerance, m, records)
}

/// Bands an outline for a caller who takes so much of it.
pub fn band_most(
    outline: &[i32],
    most: Most,
    tolerance: i32,
    m: u32,
    records: &mut [i32],
) -> Result<Report, Refusal> {
    check_pieces(m)?;
    outline::check_tolerance(tolerance)?;
    let curves = outline::curves(outline, most.curves, m)?;
    for_pieces!(m, band_units)(&curves, most.leaves, tolerance, records)
}

/// What banding an outline reports and the records that it writes, for a caller whose list is never too short: every check
/// but 8.
pub fn banded(outline: &[i32], tolerance: i32, m: u32) -> Result<(Report, Vec<i32>), Refusal> {
    check_pieces(m)?;
    outline::check_tolerance(tolerance)?;
    let curves = outline::curves(outline, outline::MOST_CURVES, m)?;
    for_pieces!(m, records_of)(&curves, tolerance)
}

/// Bands the uniform cubic B-spline of a list of points, x and y of each, as [`band`] does an outline.
pub fn spline_band(points: &[i32], tolerance: i32, m: u32, records: &mut [i32]) -> Result<Report, Refusal> {
    check_pieces(m)?;
    outline::check_tolerance(tolerance)?;
    let curves = spline::curves(points)?;
    for_pieces!(m, band_sixths)(&curves, usize::MAX, tolerance, records)
}

/// Bands an outline in binary64 as [`band`] does an outline: the curves are those of the whole numbers read.
pub fn binary64_band(
    outline: &[f64],
    tolerance: i32,
    m: u32,
    records: &mut [i32],
) -> Result<Report, Refusal> {
    check_pieces(m)?;
    outline::check_tolerance(tolerance)?;
    let curves = binary64::curves(outline, m)?;
    for_pieces!(m, band_units)(&curves, usize::MAX, tolerance, records)
}

/// Bands curves whose control values are stage units.
fn band_units<const B: usize>(
    curves: &[Curve],
    most: usize,
    tolerance: i32,
    records: &mut [i32],
) -> Result<Report, Refusal> {
    band_curves::<B, 1>(curves, most, tolerance, records)
}

/// Bands curves whose control values are sixths of a stage unit.
fn band_sixths<const B: usize>(
    curves: &[Curve],
    most: usize,
    tolerance: i32,
    records: &mut [i32],
) -> Result<Report, Refusal> {
    band_curves::<B, 6>(curves, most, tolerance, records)
}

/// Bands curves that may have `most` leaves, with B break points to a leaf; U control values make a stage unit.
/// Checks 7, 19 and 8.
fn band_curves<const B: usize, const U: i64>(
    curves: &[Curve],
    most: usize,
    tolerance: i32,
    records: &mut [i32],
) -> Result<Report, Refusal> {
    let walk = walked::<B, U>(curves, tolerance)?;
    let leaves = walk.leaves.len();
    if leaves > most {
        return Err(Refusal::TooManyLeaves { leaves });
    }
    let length = record_length(B as u32 - 1);
    let room = records.get_mut(..length * leaves).ok_or(Refusal::TooFewRecords { leaves })?;
    walk.write(room);
    Ok(walk.report(curves.len()))
}

/// The report and the records of curves whose control values are stage units. Check 7.
fn records_of<const B: usize>(curves: &[Curve], tolerance: i32) -> Result<(Report, Vec<i32>), Refusal> {
    let walk = walked::<B, 1>(curves, tolerance)?;
    let mut records = vec![0; record_length(B as u32 - 1) * walk.leaves.len()];
    walk.write(&mut records);
    Ok((walk.report(curves.len()), records))
}

/// How many leaves curves have whose control values are stage units, with B break points to a leaf. Check 7.
pub fn leaves<const B: usize>(curves: &[Curve], tolerance: i32) -> Result<usize, Refusal> {
    walked::<B, 1>(curves, tolerance).map(|walk| walk.leaves.len())
}

/// The walk of curves. Check 7.
fn walked<const B: usize, const U: i64>(curves: &[Curve], tolerance: i32) -> Result<Walk<B, U>, Refusal> {
    let mut walk = Walk { tolerance: tolerance.into(), nodes: 0, leaves: Vec::new() };
    for (number, curve) in curves.iter().enumerate() {
        walk.visit(number, curve, 1, 0)?;
    }
    Ok(walk)
}

/// A walk so far.
struct Walk<const B: usize, const U: i64> {
    tolerance: i64,
    nodes: u64,
    leaves: Vec<Leaf<B>>,
}

impl<const B: usize, const U: i64> Walk<B, U> {
    /// What was counted, of so many curves.
    fn report(&self, curves: usize) -> Report {
        Report { curves: curves as u64, leaves: self.leaves.len() as u64, nodes: self.nodes }
    }

    /// Writes the records of the leaves to a list that has room for just these.
    fn write(&self, room: &mut [i32]) {
        for (record, leaf) in room.chunks_exact_mut(record_length(B as u32 - 1)).zip(&self.leaves) {
            leaf.write(record);
        }
    }

    /// Visits a node, and below it the left half before the right half.
    fn visit(&mut self, number: usize, curve: &Curve, node: usize, depth: u32) -> Result<(), Refusal> {
        self.nodes += 1;
        if let Some(boxes) = curve.boxes_within::<B, U>(self.tolerance) {
            self.leaves.push(Leaf::new(number, node, &boxes));
            return Ok(());
        }
        if depth == deepest(curve.degree) {
            return Err(Refusal::TooWide { curve: number, node });
        }
        let (left, right) = curve.halves();
        self.visit(number, &left, 2 * node, depth + 1)?;
        self.visit(number, &right, 2 * node + 1, depth + 1)
    }
}

/// The numbers of a leaf record: curve, node, then x low, x high, y low, y high of each break point.
struct Leaf<const B: usize> {
    head: [i32; 2],
    boxes: [[i32; 4]; B],
}

impl<const B: usize> Leaf<B> {
    fn new(number: usize, node: usize, boxes: &[BoxBounds; B]) -> Leaf<B> {
        let bounds = |b: &BoxBounds| [b.x.low, b.x.high, b.y.low, b.y.high];
        let narrow = |n: i64| i32::try_from(n).expect("a bound is below 2^29");
        let boxes = std::array::from_fn(|i| bounds(&boxes[i]).map(narrow));
        Leaf { head: [number as i32, node as i32], boxes }
    }

    fn write(&self, record: &mut [i32]) {
        let (head, rest) = record.split_at_mut(2);
        head.copy_from_slice(&self.head);
        for (place, numbers) in rest.chunks_exact_mut(4).zip(&self.boxes) {
            place.copy_from_slice(numbers);
        }
    }
}

#[cfg(test)]
mod tests {
    use super::*;

    /// A line of no length, and a bow that ends where it begins and has four leaves at a tolerance of 100.
    const STILL: [i32; 5] = [1, 0, 0, 0, 0];
    const BOW: [i32; 7] = [2, 0, 0, 0, 800, 0, 0];

    fn refusal(outline: &[i32], lent: usize) -> Refusal {
        station_band(outline, 100, 3, &mut vec![0; lent]).expect_err("it is refused")
    }

    #[test]
    fn the_station_takes_64_curves() {
        assert_eq!(refusal(&STILL.repeat(64), 0), Refusal::TooFewRecords { leaves: 64 });
        assert_eq!(refusal(&STILL.repeat(65), 0), Refusal::TooManyCurves { index: 320 });
    }

    #[test]
    fn the_station_takes_128_leaves() {
        let (most, more) = (BOW.repeat(32), [&BOW.repeat(32)[..], &STILL].concat());
        assert_eq!(refusal(&most, 128 * 18 - 1), Refusal::TooFewRecords { leaves: 128 });
        let report = Report { curves: 32, leaves: 128, nodes: 224 };
        assert_eq!(station_band(&most, 100, 3, &mut [0; 128 * 18]), Ok(report));
        // Before 8, with every leaf counted, and after 7.
        assert_eq!(refusal(&more, 0), Refusal::TooManyLeaves { leaves: 129 });
        assert_eq!(refusal(&BOW.repeat(64), 4_608), Refusal::TooManyLeaves { leaves: 256 });
        let wide = [3, 0, 0, 0, 1_048_576, 0, 1_048_576, 0, 0];
        let wide = station_band(&[&more[..], &wide].concat(), 3, 3, &mut []);
        assert_eq!(wide, Err(Refusal::TooWide { curve: 33, node: 256 }));
    }

    #[test]
    fn lists_take_leaves_as_they_come() {
        let refusal = band(&BOW.repeat(4_096), 100, 3, &mut []).expect_err("nothing is lent");
        assert_eq!(refusal, Refusal::TooFewRecords { leaves: 16_384 });
    }
}
