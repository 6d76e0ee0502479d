//! Drawing a cover.

use crate::leaf::BoxBounds;
use crate::library;
use crate::refusal::Refusal;

/// How many numbers drawing asks for: x and y of eight vertices.
///
/// ```
/// assert_eq!(contour_band::VERTEX_ROOM, 16);
/// ```
pub const VERTEX_ROOM: usize = 16;

/// Draws the convex hull of two boxes, which is a cover where they are neighbours of a leaf.
///
/// The numbers of a box are sixteenths of a stage unit from −536,870,912 to 536,870,912, and no
/// low is above its high. x and y of each vertex are written to the front of `vertices`,
/// counter-clockwise from the lowest, then leftmost; no three are in line. Their count, 1 to 8, is
/// returned. The numbers past them stay as they were.
///
/// ```
/// use contour_band::{draw, Bounds, BoxBounds, Refusal, VERTEX_ROOM};
///
/// let square = |low, high| BoxBounds { x: Bounds { low, high }, y: Bounds { low, high } };
/// let mut vertices = [0; VERTEX_ROOM];
/// let count = draw(square(0, 1), square(3, 4), &mut vertices)?;
/// assert_eq!(vertices[..2 * count], [0, 0, 1, 0, 4, 3, 4, 4, 3, 4, 0, 1]);
///
/// // Sixteen numbers are asked for, also for a single vertex.
/// let refused = draw(square(7, 7), square(7, 7), &mut vertices[..2]);
/// assert_eq!(refused, Err(Refusal::TooFewVertices { length: 2 }));
/// // Place 4 is the x low of the second box.
/// let refused = draw(square(0, 1), square(4, 3), &mut vertices);
/// assert_eq!(refused, Err(Refusal::BoxNumber { place: 4 }));
/// # Ok::<(), Refusal>(())
/// ```
///
/// # Errors
///
/// [`Refusal::BoxNumber`] where a number of a box breaks a bound, else
/// [`Refusal::TooFewVertices`] where `vertices` has fewer than [`VERTEX_ROOM`] numbers, however
/// few vertices there are. `vertices` is then unaltered.
pub fn draw(first: BoxBounds, second: BoxBounds, vertices: &mut [i32]) -> Result<usize, Refusal> {
    let drawing = library::draw(first, second, vertices);
    if drawing.refusal != 0 {
        return Err(Refusal::new(drawing.refusal, drawing.spot));
    }
    Ok(drawing.vertices as usize)
}
