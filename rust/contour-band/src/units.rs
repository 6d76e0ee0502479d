//! Boxes in binary64, in stage units.

use crate::leaf::BoxBounds;
use crate::library;
use crate::refusal::Refusal;

/// A box in stage units.
///
/// ```
/// use contour_band::{box_units, Units};
///
/// let units = Units { x_low: -0.5, x_high: 0.0625, y_low: 0.0, y_high: 2.0 };
/// assert_eq!(box_units([-8, 1, 0, 32].into()), Ok(units));
/// ```
#[derive(Debug, Clone, Copy, PartialEq)]
pub struct Units {
    /// The least x.
    pub x_low: f64,
    /// The greatest x.
    pub x_high: f64,
    /// The least y.
    pub y_low: f64,
    /// The greatest y.
    pub y_high: f64,
}

/// A box in the short form, in stage units.
///
/// ```
/// use contour_band::{box_short, Short};
///
/// assert_eq!(box_short([8, 8, 0, 0].into()), Ok(Short::Point { x: 0.5, y: 0.0 }));
/// let flat = Short::Middle { x: 0.25, y: 0.0, half_width: 0.25, half_height: 0.0 };
/// assert_eq!(box_short([0, 8, 0, 0].into()), Ok(flat));
/// ```
#[derive(Debug, Clone, Copy, PartialEq)]
pub enum Short {
    /// The box is a single point.
    Point {
        /// Its x.
        x: f64,
        /// Its y.
        y: f64,
    },
    /// The box is no single point; one of its half widths may be 0.
    Middle {
        /// x of the middle.
        x: f64,
        /// y of the middle.
        y: f64,
        /// Half of the width, in x.
        half_width: f64,
        /// Half of the height, in y.
        half_height: f64,
    },
}

/// A box, whose numbers are sixteenths of a stage unit, in stage units: each number is exactly the sixteenth divided
/// by 16, and a zero is never negative.
///
/// ```
/// use contour_band::{band, box_units, leaves, record_length, Refusal, Units};
///
/// let mut records = [0; record_length(3)];
/// band(&[3, 0, 0, 10, 30, 20, 30, 30, 0], 44, 3, &mut records)?;
/// let leaf = leaves(&records, 3).next().unwrap();
/// // 160, 160, 319 and 363 sixteenths.
/// let units = Units { x_low: 10.0, x_high: 10.0, y_low: 19.9375, y_high: 22.6875 };
/// assert_eq!(box_units(leaf.boxes[1]), Ok(units));
///
/// assert_eq!(box_units([0, 0, 1, 0].into()), Err(Refusal::BoxNumber { place: 2 }));
/// # Ok::<(), Refusal>(())
/// ```
///
/// # Errors
///
/// [`Refusal::BoxNumber`] with a place from 0 to 3 where a number is beyond ±[`FARTHEST`](crate::FARTHEST) or a low is
/// above its high.
pub fn box_units(b: BoxBounds) -> Result<Units, Refusal> {
    let answer = library::box_units(b);
    if answer.refusal != 0 {
        return Err(Refusal::new(answer.refusal, answer.spot));
    }
    let library::Units { x_low, x_high, y_low, y_high, .. } = answer;
    Ok(Units { x_low, x_high, y_low, y_high })
}

/// A box in the short form: a single point where both widths are 0, else the middle with two half widths. Each number is
/// exact, so the box can be regained from it, and a zero is never negative.
///
/// ```
/// use contour_band::{box_short, Refusal, Short};
///
/// // 160, 160, 319 and 363 sixteenths.
/// let short = box_short([160, 160, 319, 363].into())?;
/// assert_eq!(short, Short::Middle { x: 10.0, y: 21.3125, half_width: 0.0, half_height: 1.375 });
/// assert_eq!(box_short([160, 160, 319, 319].into()), Ok(Short::Point { x: 10.0, y: 19.9375 }));
///
/// assert_eq!(box_short([0, -1, 0, 0].into()), Err(Refusal::BoxNumber { place: 0 }));
/// # Ok::<(), Refusal>(())
/// ```
///
/// # Errors
///
/// [`Refusal::BoxNumber`] with a place from 0 to 3 where a number is beyond ±[`FARTHEST`](crate::FARTHEST) or a low is
/// above its high.
pub fn box_short(b: BoxBounds) -> Result<Short, Refusal> {
    let answer = library::box_short(b);
    if answer.refusal != 0 {
        return Err(Refusal::new(answer.refusal, answer.spot));
    }
    let library::Short { kind, x, y, half_width, half_height, .. } = answer;
    Ok(match kind {
        1 => Short::Point { x, y },
        _ => Short::Middle { x, y, half_width, half_height },
    })
}
