//! An outline, built curve by curve.

use crate::refusal::Refusal;

/// The farthest coordinate of an outline on either side of 0, in stage units.
const FARTHEST_COORDINATE: i32 = 1_048_576;

/// How many curves an outline may have.
const MOST_CURVES: usize = 4_096;

/// An outline, built curve by curve from control points. What no banding would take is refused at once, with the
/// refusal that banding would give.
///
/// ```
/// use contour_band::{Band, Outline, Refusal};
///
/// let mut outline = Outline::new();
/// outline.curve(&[[0, 0], [10, 30], [20, 30], [30, 0]])?.curve(&[[30, 0], [0, 0]])?;
/// assert_eq!(outline.curves(), 2);
/// assert_eq!(Band::new(&outline, 44, 3)?.report().leaves, 2);
///
/// // A curve begins where the one before it ends, here at (0 0).
/// assert_eq!(outline.curve(&[[1, 0], [9, 9]]), Err(Refusal::Gap { index: 14 }));
/// // A refusal leaves the outline as it was.
/// assert_eq!(outline.curves(), 2);
/// # Ok::<(), Refusal>(())
/// ```
#[derive(Debug, Clone, Default, PartialEq, Eq, Hash)]
pub struct Outline {
    numbers: Vec<i32>,
    /// The index of each curve's degree.
    starts: Vec<usize>,
}

impl Outline {
    /// An outline without a curve.
    ///
    /// ```
    /// assert_eq!(contour_band::Outline::new().curves(), 0);
    /// ```
    pub fn new() -> Outline {
        Outline::default()
    }

    /// Adds a curve by its control points, x and y in stage units: 2 points for a line, up to 6 for degree 5.
    ///
    /// ```
    /// use contour_band::{Outline, Refusal};
    ///
    /// let mut outline = Outline::new();
    /// outline.curve(&[[0, 0], [15, 40], [30, 0]])?;
    /// assert_eq!(outline.numbers(), [2, 0, 0, 15, 40, 30, 0]);
    /// assert_eq!(outline.curve(&[[30, 0]]), Err(Refusal::Degree { index: 7 }));
    /// # Ok::<(), Refusal>(())
    /// ```
    ///
    /// # Errors
    ///
    /// [`Refusal::TooManyCurves`] for a 4,097th curve, [`Refusal::Degree`] unless there are 2 to 6 points,
    /// [`Refusal::Coordinate`] for one beyond ±1,048,576, and [`Refusal::Gap`] where the curve does not begin where
    /// the one before it ends; the first in this order. The outline is then as it was.
    pub fn curve(&mut self, points: &[[i32; 2]]) -> Result<&mut Outline, Refusal> {
        let index = self.numbers.len();
        if self.starts.len() == MOST_CURVES {
            return Err(Refusal::TooManyCurves { index });
        }
        if !(2..=6).contains(&points.len()) {
            return Err(Refusal::Degree { index });
        }
        let beyond = |&number: &i32| !(-FARTHEST_COORDINATE..=FARTHEST_COORDINATE).contains(&number);
        if let Some(place) = points.iter().flatten().position(beyond) {
            return Err(Refusal::Coordinate { index: index + 1 + place });
        }
        if self.end().is_some_and(|end| end != points[0]) {
            return Err(Refusal::Gap { index });
        }
        self.starts.push(index);
        self.numbers.push(points.len() as i32 - 1);
        self.numbers.extend(points.iter().flatten());
        Ok(self)
    }

    /// Exchanges a curve for one that fits in its place.
    pub(crate) fn replace(&mut self, curve: usize, points: &[[i32; 2]]) {
        let start = self.starts[curve];
        let end = self.starts.get(curve + 1).copied().unwrap_or(self.numbers.len());
        let new: Vec<i32> = [&[points.len() as i32 - 1], &points.concat()[..]].concat();
        for later in &mut self.starts[curve + 1..] {
            *later = *later - end + start + new.len();
        }
        self.numbers.splice(start..end, new);
    }

    /// Where the last curve ends, and the next one begins; `None` without a curve.
    ///
    /// ```
    /// let mut outline = contour_band::Outline::new();
    /// assert_eq!(outline.end(), None);
    /// outline.curve(&[[0, 0], [30, -7]])?;
    /// assert_eq!(outline.end(), Some([30, -7]));
    /// # Ok::<(), contour_band::Refusal>(())
    /// ```
    pub fn end(&self) -> Option<[i32; 2]> {
        match self.numbers[..] {
            [.., x, y] => Some([x, y]),
            _ => None,
        }
    }

    /// How many curves there are.
    ///
    /// ```
    /// let mut outline = contour_band::Outline::new();
    /// assert_eq!(outline.curve(&[[0, 0], [1, 1]])?.curves(), 1);
    /// # Ok::<(), contour_band::Refusal>(())
    /// ```
    pub fn curves(&self) -> usize {
        self.starts.len()
    }

    /// The outline as the engine takes it: for each curve its degree, then x and y of each control point.
    ///
    /// ```
    /// let mut outline = contour_band::Outline::new();
    /// assert_eq!(outline.curve(&[[0, 0], [1, 1]])?.numbers(), [1, 0, 0, 1, 1]);
    /// # Ok::<(), contour_band::Refusal>(())
    /// ```
    pub fn numbers(&self) -> &[i32] {
        &self.numbers
    }

    /// The control points of each curve, in order.
    ///
    /// ```
    /// let mut outline = contour_band::Outline::new();
    /// outline.curve(&[[0, 0], [1, 1]])?.curve(&[[1, 1], [2, 0], [3, 1]])?;
    /// let second: Vec<[i32; 2]> = outline.points().nth(1).expect("there are two curves").collect();
    /// assert_eq!(second, [[1, 1], [2, 0], [3, 1]]);
    /// # Ok::<(), contour_band::Refusal>(())
    /// ```
    pub fn points(&self) -> impl ExactSizeIterator<Item = impl ExactSizeIterator<Item = [i32; 2]> + '_> + '_ {
        self.starts.iter().map(|&start| {
            let count = self.numbers[start] as usize + 1;
            self.numbers[start + 1..][..2 * count].chunks_exact(2).map(|point| [point[0], point[1]])
        })
    }
}

impl AsRef<[i32]> for Outline {
    /// The outline as the engine takes it.
    fn as_ref(&self) -> &[i32] {
        &self.numbers
    }
}

#[cfg(test)]
mod tests {
    use super::*;
    use crate::band;

    /// What banding says of the numbers of an outline with one more curve.
    fn refused_by_banding(outline: &Outline, points: &[[i32; 2]]) -> Option<Refusal> {
        let mut numbers = outline.numbers.clone();
        numbers.push(points.len() as i32 - 1);
        numbers.extend(points.concat());
        band(&numbers, FARTHEST_COORDINATE, 3, &mut vec![0; 18 * 256 * 5_000]).err()
    }

    #[test]
    fn what_is_refused_is_what_banding_refuses() {
        let mut outline = Outline::new();
        outline.curve(&[[0, 0], [10, 30], [20, 30]]).expect("the curve is taken");
        let [near, far] = [[20, 30], [FARTHEST_COORDINATE + 1, 5]];
        let cases: [&[[i32; 2]]; 8] = [
            &[],
            &[near],
            &[near; 7],
            &[near, [5, 5], [-FARTHEST_COORDINATE - 1, 0]],
            &[far, near],
            &[[20, 31], far],
            &[[20, 31], near],
            &[[21, 30], near],
        ];
        for points in cases {
            let refused = refused_by_banding(&outline, points);
            assert!(refused.is_some(), "{points:?}");
            assert_eq!(outline.clone().curve(points).err(), refused, "{points:?}");
        }
        let ends: [&[[i32; 2]]; 2] = [&[near, [FARTHEST_COORDINATE, -FARTHEST_COORDINATE]], &[near; 6]];
        for points in ends {
            assert_eq!(refused_by_banding(&outline, points), None, "{points:?}");
            assert!(outline.clone().curve(points).is_ok(), "{points:?}");
        }
        for _ in 1..MOST_CURVES {
            assert_eq!(refused_by_banding(&outline, &[near; 2]), None);
            outline.curve(&[near; 2]).expect("4,096 curves are taken");
        }
        assert_eq!(outline.curve(&[near; 2]).err(), refused_by_banding(&outline.clone(), &[near; 2]));
        assert_eq!(outline.curves(), MOST_CURVES);
    }
}
