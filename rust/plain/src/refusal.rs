//! Refusals, with the number and the spot that document 01, or a request of document 02, gives each. Numbers from 101 on are
//! of operations that no document has.

/// Why an operation refused its input. Nothing that the caller lent is altered then.
#[derive(Debug, Clone, Copy, PartialEq, Eq)]
#[non_exhaustive]
pub enum Refusal {
    /// 1: the tolerance is outside its range.
    Tolerance,
    /// 2: a degree is not 1 to 5.
    Degree {
        /// Where the degree stands in the outline.
        index: usize,
    },
    /// 3: the outline ends inside a curve.
    CutShort {
        /// The length of the outline.
        length: usize,
    },
    /// 4: a coordinate is outside its range.
    Coordinate {
        /// Where the first such coordinate of its curve stands in the outline.
        index: usize,
    },
    /// 5: a curve begins that is one too many.
    TooManyCurves {
        /// Where its degree stands in the outline.
        index: usize,
    },
    /// 6: the outline is empty.
    EmptyOutline,
    /// 7: a node at the last depth does not meet the tolerance.
    TooWide {
        /// The number of the curve, from 0.
        curve: usize,
        /// The first such node of the walk.
        node: usize,
    },
    /// 8: the lent list has no room for the leaves, or in foretelling for the depths.
    TooFewRecords {
        /// How many leaves the outline has; in foretelling how many curves.
        leaves: usize,
    },
    /// 9: the leaf list is empty, or its length is no multiple of a record's.
    LeafListLength {
        /// The length of the leaf list.
        length: usize,
    },
    /// 10: a number of the leaf list is bad.
    LeafListNumber {
        /// Where the first such number stands in the list.
        index: usize,
    },
    /// 11: the point's x is beyond the range.
    PointX,
    /// 11: the point's y is beyond the range, and its x is not.
    PointY,
    /// 12: a number of a box, or of two boxes, is beyond its range, or a low above its high.
    BoxNumber {
        /// The place of the first such number, 0 to 3 or 0 to 7.
        place: usize,
    },
    /// 13: fewer than 16 numbers are lent for vertices.
    TooFewVertices {
        /// How many are lent.
        length: usize,
    },
    /// 14: a line of a text is not a form.
    NotAForm {
        /// The line, from 1.
        line: usize,
    },
    /// 15: a form out of order, or an empty text.
    OutOfOrder {
        /// The line, from 1.
        line: usize,
    },
    /// 16: a text is over the longest size.
    TextTooLong {
        /// The first size that is over it.
        size: usize,
    },
    /// 17: a curve does not begin where the curve before it ends.
    Gap {
        /// Where the degree of the later curve stands in the outline.
        index: usize,
    },
    /// 18: the number of pieces is not 1 to 8.
    Pieces,
    /// 19: the outline has more leaves than the caller takes.
    TooManyLeaves {
        /// How many leaves the outline has.
        leaves: usize,
    },
    /// 20: a degree is 4 or 5, and the number of pieces is below 3.
    TooFewPieces {
        /// Where the degree stands in the outline.
        index: usize,
    },
    /// 21: a coordinate of an outline in binary64 is no whole number.
    NotWhole {
        /// Where it stands in the outline.
        index: usize,
    },
    /// 22: the curve to exchange is not in the outline.
    NoSuchCurve {
        /// The number that was given.
        number: usize,
    },
    /// 23: the records given are not those of the outline, or are more than the list has.
    OtherRecords {
        /// Where they first differ, or the shortest of their count, the list and the outline's own records.
        index: usize,
    },
    /// 24: a B-spline's list of points has an odd count of numbers, too few or too many.
    SplineLength {
        /// The length of the list.
        length: usize,
    },
    /// 25: a coordinate of a B-spline's point is outside its range.
    SplineCoordinate {
        /// Where the first such coordinate stands in the list.
        index: usize,
    },
    /// 26: the leaf list of a quote has too many records.
    TooManyRecords {
        /// The length of the list.
        length: usize,
    },
    /// 101: the list of points has an odd count of numbers.
    OddPoints {
        /// The length of the list.
        length: usize,
    },
}

impl Refusal {
    /// The refusal's number in document 01 or 02.
    pub fn number(self) -> u32 {
        match self {
            Refusal::Tolerance => 1,
            Refusal::Degree { .. } => 2,
            Refusal::CutShort { .. } => 3,
            Refusal::Coordinate { .. } => 4,
            Refusal::TooManyCurves { .. } => 5,
            Refusal::EmptyOutline => 6,
            Refusal::TooWide { .. } => 7,
            Refusal::TooFewRecords { .. } => 8,
            Refusal::LeafListLength { .. } => 9,
            Refusal::LeafListNumber { .. } => 10,
            Refusal::PointX | Refusal::PointY => 11,
            Refusal::BoxNumber { .. } => 12,
            Refusal::TooFewVertices { .. } => 13,
            Refusal::NotAForm { .. } => 14,
            Refusal::OutOfOrder { .. } => 15,
            Refusal::TextTooLong { .. } => 16,
            Refusal::Gap { .. } => 17,
            Refusal::Pieces => 18,
            Refusal::TooManyLeaves { .. } => 19,
            Refusal::TooFewPieces { .. } => 20,
            Refusal::NotWhole { .. } => 21,
            Refusal::NoSuchCurve { .. } => 22,
            Refusal::OtherRecords { .. } => 23,
            Refusal::SplineLength { .. } => 24,
            Refusal::SplineCoordinate { .. } => 25,
            Refusal::TooManyRecords { .. } => 26,
            Refusal::OddPoints { .. } => 101,
        }
    }

    /// The one whole number that the document gives beside the refusal's number.
    pub fn spot(self) -> u64 {
        let spot = match self {
            Refusal::Tolerance | Refusal::EmptyOutline | Refusal::PointX | Refusal::Pieces => 0,
            Refusal::PointY => 1,
            Refusal::Degree { index }
            | Refusal::Coordinate { index }
            | Refusal::TooManyCurves { index }
            | Refusal::LeafListNumber { index }
            | Refusal::Gap { index }
            | Refusal::TooFewPieces { index }
            | Refusal::NotWhole { index }
            | Refusal::OtherRecords { index }
            | Refusal::SplineCoordinate { index } => index,
            Refusal::NoSuchCurve { number } => number,
            Refusal::CutShort { length }
            | Refusal::LeafListLength { length }
            | Refusal::SplineLength { length }
            | Refusal::TooManyRecords { length }
            | Refusal::OddPoints { length } => length,
            Refusal::TooWide { curve, node } => 512 * curve + node,
            Refusal::TooFewRecords { leaves } | Refusal::TooManyLeaves { leaves } => leaves,
            Refusal::BoxNumber { place } => place,
            Refusal::TooFewVertices { length } => length,
            Refusal::NotAForm { line } | Refusal::OutOfOrder { line } => line,
            Refusal::TextTooLong { size } => size,
        };
        spot as u64
    }
}
