//! Refusals as an enum: a number and a spot each, and words.

use std::error::Error;
use std::fmt;

/// Why an operation refused its input. Every list that the caller lent is then as it was.
///
/// Each has a number and a spot, by which the engine's other interfaces name it, and words.
///
/// ```
/// use contour_band::{Band, Refusal};
///
/// // The second curve does not begin at (30 0), where the first one ends.
/// let outline = [1, 0, 0, 30, 0, 1, 31, 0, 31, 40];
/// let refusal = Band::new(&outline, 44, 3).unwrap_err();
/// assert_eq!(refusal, Refusal::Gap { index: 5 });
/// assert_eq!((refusal.number(), refusal.spot()), (17, 5));
/// assert!(refusal.to_string().starts_with("refused 17 5: a curve does not begin where"));
/// ```
#[derive(Debug, Clone, Copy, PartialEq, Eq, Hash)]
#[non_exhaustive]
pub enum Refusal {
    /// 18: m is not 1 to 8.
    Pieces,
    /// 1: the tolerance is not 2 to 1,048,576.
    Tolerance,
    /// 2: a degree is not 1 to 5.
    Degree {
        /// The degree's index in the outline.
        index: usize,
    },
    /// 20: a degree is 4 or 5, and m is below 3.
    TooFewPieces {
        /// The degree's index in the outline.
        index: usize,
    },
    /// 3: the outline ends inside a curve.
    CutShort {
        /// The outline's length.
        length: usize,
    },
    /// 4: a coordinate is not −1,048,576 to 1,048,576.
    Coordinate {
        /// The index in the outline of the curve's first such coordinate.
        index: usize,
    },
    /// 21: a coordinate of an outline in binary64 is no whole number; infinities and NaN are none.
    NotWhole {
        /// The index in the outline of the coordinate. The curve's first one that is no whole number or not in
        /// range decides between 21 and 4.
        index: usize,
    },
    /// 17: a curve does not begin where the curve before it ends.
    Gap {
        /// The index in the outline of the later curve's degree.
        index: usize,
    },
    /// 5: the outline has more than 4,096 curves; for the bench station, more than 64.
    TooManyCurves {
        /// The index in the outline of the degree of the first curve too many.
        index: usize,
    },
    /// 6: the outline has no curve.
    EmptyOutline,
    /// 24: a B-spline's list of points has an odd count of numbers, fewer than 8 or more than 8,198.
    SplineLength {
        /// The list's length.
        length: usize,
    },
    /// 25: a coordinate of a B-spline's point is not −131,072 to 131,072.
    SplineCoordinate {
        /// The index in the list of the first such coordinate.
        index: usize,
    },
    /// 7: a box still has a diagonal longer than the tolerance after the last halving.
    TooWide {
        /// The number of the curve, from 0.
        curve: usize,
        /// The first such node of the walk: 256 to 511, or 16 to 31 where the curve's degree is 4 or 5.
        node: u32,
    },
    /// 22: the curve that is to be exchanged is not in the outline.
    NoSuchCurve {
        /// The number that was given.
        number: usize,
    },
    /// 23: the records given are not those of the outline, or their count passes the list.
    OtherRecords {
        /// The first index at which they differ; where none does, the least of the count given, the list's length and the
        /// count of the outline's records.
        index: usize,
    },
    /// 8: the lent list has fewer numbers than the leaves, the points or the curves need.
    TooFewRecords {
        /// How many leaves the outline has; each needs [`record_length`](crate::record_length) numbers. Of a list of
        /// points, how many there are; each needs three. In foretelling, how many curves the outline has; each needs one.
        leaves: usize,
    },
    /// 19: the outline has more leaves than the bench station takes, which is 128.
    TooManyLeaves {
        /// How many leaves the outline has.
        leaves: usize,
    },
    /// 9: the leaf list is empty, or its length is no multiple of [`record_length`](crate::record_length).
    LeafListLength {
        /// The leaf list's length.
        length: usize,
    },
    /// 26: the leaf list of a quote has more than 1,048,576 records.
    TooManyRecords {
        /// The leaf list's length.
        length: usize,
    },
    /// 10: a number of the leaf list is bad: a curve is not 0 to 4,095, a node is not 1 to 511, a
    /// box number is beyond ±[`FARTHEST`](crate::FARTHEST), or a low is above its high.
    LeafListNumber {
        /// The index of the first such number; for a low above its high, the low's.
        index: usize,
    },
    /// 101: the list of points has an odd count of numbers.
    OddPoints {
        /// The list's length.
        length: usize,
    },
    /// 11: the point's x is beyond ±[`FARTHEST`](crate::FARTHEST).
    PointX,
    /// 11: the point's y is beyond ±[`FARTHEST`](crate::FARTHEST), and its x is not.
    PointY,
    /// 12: a number of a box, or of two boxes, is not −536,870,912 to 536,870,912, or a low is above its high.
    BoxNumber {
        /// The place of the first such number: x low, x high, y low, y high of the first box are 0 to
        /// 3, those of the second 4 to 7. A low above its high is named by the low.
        place: usize,
    },
    /// 13: the lent list has fewer than [`VERTEX_ROOM`](crate::VERTEX_ROOM) numbers.
    TooFewVertices {
        /// How many it has.
        length: usize,
    },
}

impl Refusal {
    /// The refusal's number: the same for every outline, and the same from C.
    ///
    /// ```
    /// assert_eq!(contour_band::Refusal::Tolerance.number(), 1);
    /// ```
    pub fn number(self) -> u32 {
        match self {
            Refusal::Tolerance => 1,
            Refusal::Degree { .. } => 2,
            Refusal::CutShort { .. } => 3,
            Refusal::Coordinate { .. } => 4,
            Refusal::TooManyCurves { .. } => 5,
            Refusal::EmptyOutline => 6,
            Refusal::TooWide { .. } => 7,
            Refusal::TooFewRecords { .. } => 8,
            Refusal::LeafListLength { .. } => 9,
            Refusal::LeafListNumber { .. } => 10,
            Refusal::PointX | Refusal::PointY => 11,
            Refusal::BoxNumber { .. } => 12,
            Refusal::TooFewVertices { .. } => 13,
            Refusal::Gap { .. } => 17,
            Refusal::Pieces => 18,
            Refusal::TooManyLeaves { .. } => 19,
            Refusal::TooFewPieces { .. } => 20,
            Refusal::NotWhole { .. } => 21,
            Refusal::NoSuchCurve { .. } => 22,
            Refusal::OtherRecords { .. } => 23,
            Refusal::SplineLength { .. } => 24,
            Refusal::SplineCoordinate { .. } => 25,
            Refusal::TooManyRecords { .. } => 26,
            Refusal::OddPoints { .. } => 101,
        }
    }

    /// The refusal's spot, which says where: an index, a length or a count, as [`text`](Refusal::text) tells; 0 where
    /// there is nothing to tell.
    ///
    /// ```
    /// assert_eq!(contour_band::Refusal::Coordinate { index: 4 }.spot(), 4);
    /// assert_eq!(contour_band::Refusal::TooWide { curve: 2, node: 300 }.spot(), 1_324);
    /// ```
    pub fn spot(self) -> u64 {
        match self {
            Refusal::Pieces | Refusal::Tolerance | Refusal::EmptyOutline | Refusal::PointX => 0,
            Refusal::PointY => 1,
            Refusal::Degree { index }
            | Refusal::Coordinate { index }
            | Refusal::TooManyCurves { index }
            | Refusal::LeafListNumber { index }
            | Refusal::Gap { index }
            | Refusal::TooFewPieces { index }
            | Refusal::NotWhole { index }
            | Refusal::OtherRecords { index }
            | Refusal::SplineCoordinate { index } => index as u64,
            Refusal::NoSuchCurve { number } => number as u64,
            Refusal::CutShort { length }
            | Refusal::LeafListLength { length }
            | Refusal::SplineLength { length }
            | Refusal::TooManyRecords { length }
            | Refusal::OddPoints { length } => length as u64,
            Refusal::TooWide { curve, node } => 512 * curve as u64 + u64::from(node),
            Refusal::TooFewRecords { leaves } | Refusal::TooManyLeaves { leaves } => leaves as u64,
            Refusal::BoxNumber { place } => place as u64,
            Refusal::TooFewVertices { length } => length as u64,
        }
    }

    /// The refusal with this number and spot.
    ///
    /// # Panics
    ///
    /// Where no refusal has the number and spot. The library is proved never to answer such a one.
    pub(crate) fn new(number: u32, spot: u64) -> Refusal {
        let place = spot as usize;
        match number {
            1 => Refusal::Tolerance,
            2 => Refusal::Degree { index: place },
            3 => Refusal::CutShort { length: place },
            4 => Refusal::Coordinate { index: place },
            5 => Refusal::TooManyCurves { index: place },
            6 => Refusal::EmptyOutline,
            7 => Refusal::TooWide { curve: place / 512, node: (spot % 512) as u32 },
            8 => Refusal::TooFewRecords { leaves: place },
            9 => Refusal::LeafListLength { length: place },
            10 => Refusal::LeafListNumber { index: place },
            11 if spot == 0 => Refusal::PointX,
            11 if spot == 1 => Refusal::PointY,
            12 => Refusal::BoxNumber { place },
            13 => Refusal::TooFewVertices { length: place },
            17 => Refusal::Gap { index: place },
            18 => Refusal::Pieces,
            19 => Refusal::TooManyLeaves { leaves: place },
            20 => Refusal::TooFewPieces { index: place },
            21 => Refusal::NotWhole { index: place },
            22 => Refusal::NoSuchCurve { number: place },
            23 => Refusal::OtherRecords { index: place },
            24 => Refusal::SplineLength { length: place },
            25 => Refusal::SplineCoordinate { index: place },
            26 => Refusal::TooManyRecords { length: place },
            101 => Refusal::OddPoints { length: place },
            _ => panic!("the library answered refusal {number} at {spot}, which does not exist"),
        }
    }
}

impl Refusal {
    /// What is wrong, what would be right, and what the spot is. The words are those of `contour_refusal_text` in C.
    ///
    /// ```
    /// use contour_band::Refusal;
    ///
    /// let text = Refusal::Degree { index: 9 }.text();
    /// assert_eq!(text, "a degree is not 1 to 5; the spot is its index in the outline");
    /// ```
    pub fn text(self) -> &'static str {
        match self.number() {
            1 => "the tolerance is not 2 to 1048576 sixteenths of a stage unit",
            2 => "a degree is not 1 to 5; the spot is its index in the outline",
            3 => "the outline ends inside a curve; the spot is the outline's length",
            4 => "a coordinate is not -1048576 to 1048576; the spot is its index in the outline",
            5 => "the outline has more than 4096 curves, or 64 at the bench station; the spot is the index of the degree of the first too many",
            6 => "the outline has no curve",
            7 => "a stretch of a curve is still wider than the tolerance after its last halving; the spot is 512 * curve + node",
            8 => "the list lent is too short; the spot is how many leaves, points or curves it must have room for",
            9 => "the leaf list is empty or ends inside a record, which has 6 + 4 * m numbers; the spot is the list's length",
            10 => "a number of the leaf list is bad: a curve is 0 to 4095, a node 1 to 511, a bound -536870912 to 536870912, no low above its high; the spot is its index",
            11 => "a coordinate of the point is not -536870912 to 536870912; the spot is 0 for x and 1 for y",
            12 => "a number of the boxes is not -536870912 to 536870912, or a low is above its high; the spot is its place, 0 to 7",
            13 => "fewer than 16 numbers are lent for vertices; the spot is how many are",
            17 => "a curve does not begin where the curve before it ends; the spot is the index of its degree in the outline",
            18 => "m, the number of pieces of a leaf, is not 1 to 8",
            19 => "the outline has more than 128 leaves, which the bench station does not take; the spot is how many it has",
            20 => "a curve of degree 4 or 5 takes 3 to 8 pieces a leaf, and m is below 3; the spot is the index of its degree in the outline",
            21 => "a coordinate is no whole number; the spot is its index in the outline",
            22 => "the outline has no curve of this number; the spot is the number",
            23 => "the records given are not the outline's, or their count passes the list; the spot is the first index that differs, or the least of the count, the list's length and the length of the outline's records",
            24 => "a B-spline has x and y of 4 to 4099 points, which is an even count of numbers from 8 to 8198; the spot is the count given",
            25 => "a coordinate of a B-spline's point is not -131072 to 131072; the spot is its index in the list",
            26 => "the leaf list of a quote has more than 1048576 records; the spot is the list's length",
            101 => "the list of points has an odd count of numbers; the spot is the count",
            number => unreachable!("no refusal has the number {number}"),
        }
    }
}

impl fmt::Display for Refusal {
    /// `refused`, the number, the spot, and the words.
    fn fmt(&self, f: &mut fmt::Formatter<'_>) -> fmt::Result {
        write!(f, "refused {} {}: {}", self.number(), self.spot(), self.text())
    }
}

impl Error for Refusal {}

#[cfg(test)]
mod tests {
    use super::*;

    #[test]
    fn number_and_spot_are_what_the_library_answered() {
        let places = [0, 1, 17, 575, 32_767];
        for number in (2..=10).chain(12..=13).chain([17, 19, 20, 21, 22, 23, 24, 25, 26, 101]) {
            for place in places {
                // 6 has the spot 0 only.
                let spot = if number == 6 { 0 } else { place };
                let refusal = Refusal::new(number, spot);
                assert_eq!((refusal.number(), refusal.spot()), (number, spot));
            }
        }
        for (number, spot) in [(1, 0), (11, 0), (11, 1), (18, 0)] {
            let refusal = Refusal::new(number, spot);
            assert_eq!((refusal.number(), refusal.spot()), (number, spot));
        }
        assert_eq!(Refusal::new(7, 512 * 4_095 + 511), Refusal::TooWide { curve: 4_095, node: 511 });
    }

    #[test]
    #[should_panic(expected = "refusal 99 at 5")]
    fn an_unknown_number_is_no_refusal() {
        Refusal::new(99, 5);
    }

    #[test]
    #[should_panic(expected = "refusal 11 at 2")]
    fn a_point_has_two_coordinates() {
        Refusal::new(11, 2);
    }

    #[test]
    fn a_message_has_number_spot_and_words() {
        let message = Refusal::TooManyLeaves { leaves: 132 }.to_string();
        assert!(message.starts_with("refused 19 132: the outline has more than 128 leaves"), "{message}");
    }
}
