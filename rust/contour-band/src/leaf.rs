//! Leaf records as values.

use std::slice;

/// How many numbers a leaf record of m pieces has: the curve, the node, and the four numbers of a box at
/// each of m + 1 break points.
///
/// ```
/// use contour_band::record_length;
///
/// assert_eq!([1, 3, 8].map(record_length), [10, 18, 38]);
/// ```
pub const fn record_length(m: u32) -> usize {
    6 + 4 * m as usize
}

/// A low and a high of one coordinate, in sixteenths of a stage unit.
///
/// ```
/// use contour_band::Bounds;
///
/// let bounds = Bounds { low: 319, high: 363 };
/// assert_eq!(bounds.high - bounds.low, 44);
/// ```
#[derive(Debug, Clone, Copy, PartialEq, Eq, Hash)]
#[repr(C)]
pub struct Bounds {
    /// Rounded down.
    pub low: i32,
    /// Rounded up.
    pub high: i32,
}

/// The bounds of both coordinates at a break point.
///
/// ```
/// use contour_band::{Bounds, BoxBounds};
///
/// // x low, x high, y low and y high, as they stand in a record.
/// let middle = BoxBounds::from([160, 160, 319, 363]);
/// assert_eq!(middle, BoxBounds { x: Bounds { low: 160, high: 160 }, y: Bounds { low: 319, high: 363 } });
/// ```
#[derive(Debug, Clone, Copy, PartialEq, Eq, Hash)]
#[repr(C)]
pub struct BoxBounds {
    /// Bounds of x.
    pub x: Bounds,
    /// Bounds of y.
    pub y: Bounds,
}

impl From<[i32; 4]> for BoxBounds {
    /// The box of x low, x high, y low and y high, as they stand in a record.
    fn from([x_low, x_high, y_low, y_high]: [i32; 4]) -> BoxBounds {
        BoxBounds { x: Bounds { low: x_low, high: x_high }, y: Bounds { low: y_low, high: y_high } }
    }
}

impl BoxBounds {
    /// The boxes that stand one after the other in a record, four numbers each.
    fn slice(numbers: &[i32]) -> &[BoxBounds] {
        // Safety: in C's layout a box is its four numbers in this order and nothing else, so as many boxes
        // as there are whole fours lie inside the slice, aligned as its numbers are.
        unsafe { slice::from_raw_parts(numbers.as_ptr().cast(), numbers.len() / 4) }
    }
}

/// A leaf: a stretch of a curve and the boxes that enclose it, which are those of a record.
///
/// ```
/// use contour_band::Band;
///
/// let arch = Band::new(&[3, 0, 0, 10, 30, 20, 30, 30, 0], 43, 3)?;
/// let second = arch.leaves().nth(1).expect("there are two leaves");
/// // The second half of the curve, which begins at its middle.
/// assert_eq!((second.curve, second.node, second.boxes.len()), (0, 3, 4));
/// assert_eq!((second.boxes[0].x.low, second.boxes[0].x.high), (240, 240));
/// # Ok::<(), contour_band::Refusal>(())
/// ```
#[derive(Debug, Clone, Copy, PartialEq, Eq, Hash)]
pub struct Leaf<'a> {
    /// The number of the curve in its outline, from 0.
    pub curve: i32,
    /// The node. Node 1 is the whole curve, and node n has the halves 2n and 2n + 1.
    pub node: i32,
    /// The box at each of the m + 1 break points, the m-ths of the stretch. Cover i is of boxes i and i + 1.
    pub boxes: &'a [BoxBounds],
}

/// The leaves of a list of records of m pieces, in order. Numbers after the last whole record are left
/// out; give it exactly the records that [`band`](crate::band) reported, and the same m.
///
/// ```
/// use contour_band::{band, draw, leaves, record_length, Refusal, VERTEX_ROOM};
///
/// let m = 4;
/// let mut records = vec![0; 256 * record_length(m)];
/// let report = band(&[2, 0, 0, 0, 18, 0, 0], 10, m, &mut records)?;
/// records.truncate(record_length(m) * report.leaves);
///
/// let leaf = leaves(&records, m).next().unwrap();
/// assert_eq!((leaf.curve, leaf.node, leaf.boxes.len()), (0, 1, 5));
/// assert_eq!((leaf.boxes[2].y.low, leaf.boxes[2].y.high), (144, 153));
///
/// // Two neighbours make a cover, which can be drawn.
/// let mut vertices = [0; VERTEX_ROOM];
/// for neighbours in leaf.boxes.windows(2) {
///     assert_eq!(draw(neighbours[0], neighbours[1], &mut vertices)?, 2);
/// }
/// # Ok::<(), Refusal>(())
/// ```
pub fn leaves(records: &[i32], m: u32) -> impl Iterator<Item = Leaf<'_>> {
    let records = records.chunks_exact(record_length(m));
    records.map(|record| Leaf { curve: record[0], node: record[1], boxes: BoxBounds::slice(&record[2..]) })
}

#[cfg(test)]
mod tests {
    use super::*;

    #[test]
    fn a_record_is_read_in_order() {
        let numbers: Vec<i32> = (0..80).collect();
        for m in 1..=8 {
            let length = record_length(m) as i32;
            let read: Vec<Leaf> = leaves(&numbers, m).collect();
            // What is left of the list is no record.
            assert_eq!(read.len() as i32, 80 / length);
            assert_eq!((read[1].curve, read[1].node), (length, length + 1));
            assert_eq!(read[1].boxes.len() as u32, m + 1);
            for (i, b) in (0..).zip(read[1].boxes) {
                let first = length + 2 + 4 * i;
                assert_eq!(*b, BoxBounds::from([first, first + 1, first + 2, first + 3]));
            }
        }
    }

    #[test]
    fn every_m_can_be_asked_for() {
        for m in [0, 9, u32::MAX] {
            for leaf in leaves(&[7; 100], m) {
                assert_eq!(leaf.boxes.len() as u32, m + 1);
            }
        }
    }
}
