//! A band that owns its records.

use crate::band::{band, binary64_band, spline_band, Report};
use crate::cover::{draw, VERTEX_ROOM};
use crate::exchange::exchange;
use crate::judge::{judge, judge_points, Judgement};
use crate::leaf::{leaves, record_length, Leaf};
use crate::outline::Outline;
use crate::quote::{quote, Cents};
use crate::refusal::Refusal;
use crate::tightest::tightest;

/// A band with its records and its number of pieces: a point is judged against just what banding wrote.
///
/// ```
/// use contour_band::{Band, Judgement, Outline, Refusal};
///
/// let mut outline = Outline::new();
/// outline.curve(&[[0, 0], [10, 30], [20, 30], [30, 0]])?;
/// let band = Band::new(&outline, 44, 3)?;
/// assert_eq!(band.report().leaves, 1);
/// assert_eq!(band.judge(240, 363), Ok(Judgement::On { leaf: 0, cover: 1 }));
/// assert_eq!(band.judge(240, 364), Ok(Judgement::Off));
/// assert_eq!(Band::new(&outline, 1, 3), Err(Refusal::Tolerance));
/// # Ok::<(), Refusal>(())
/// ```
#[derive(Debug, Clone, PartialEq, Eq, Hash)]
pub struct Band {
    records: Vec<i32>,
    report: Report,
    tolerance: i32,
    pieces: u32,
}

/// A cover of a band: the convex hull of two neighbouring boxes of a leaf.
///
/// ```
/// use contour_band::Band;
///
/// // A line from (0 0) to (1 1): its boxes are of no width but for rounding.
/// let line = Band::new(&[1, 0, 0, 1, 1], 4, 2)?;
/// let last = line.covers().last().expect("a leaf has covers");
/// assert_eq!((last.leaf, last.cover), (0, 1));
/// assert_eq!(last.vertices, [[8, 8], [16, 16]]);
/// # Ok::<(), contour_band::Refusal>(())
/// ```
#[derive(Debug, Clone, PartialEq, Eq, Hash)]
pub struct Cover {
    /// The number of its leaf in the band, from 0.
    pub leaf: usize,
    /// Its number in the leaf, 0 to m − 1.
    pub cover: usize,
    /// Its 1 to 8 vertices in sixteenths of a stage unit, counter-clockwise from the lowest, then leftmost.
    pub vertices: Vec<[i32; 2]>,
}

impl Band {
    /// Puts a band round an outline: an [`Outline`](crate::Outline), or the numbers that [`band`] takes. `tolerance` is
    /// the greatest diagonal of a box, in sixteenths of a stage unit, and `pieces` is how many straight pieces a leaf has.
    ///
    /// ```
    /// use contour_band::{Band, Refusal};
    ///
    /// let outline = [5, 0, 0, 20, 60, 40, -30, 80, 90, 110, 40, 120, 0];
    /// assert_eq!(Band::new(&outline, 16, 5)?.report().leaves, 5);
    /// // A curve of degree 5 takes three pieces and more.
    /// assert_eq!(Band::new(&outline, 16, 2), Err(Refusal::TooFewPieces { index: 0 }));
    /// # Ok::<(), Refusal>(())
    /// ```
    ///
    /// # Errors
    ///
    /// The refusals of [`band`], but for [`Refusal::TooFewRecords`]: there is room for every leaf.
    pub fn new(outline: &(impl AsRef<[i32]> + ?Sized), tolerance: i32, pieces: u32) -> Result<Band, Refusal> {
        Band::made(tolerance, pieces, |records| band(outline.as_ref(), tolerance, pieces, records))
    }

    /// Puts a band round a uniform cubic B-spline, by its points in stage units, as [`spline_band`] does.
    ///
    /// ```
    /// use contour_band::{Band, Refusal};
    ///
    /// let band = Band::of_spline(&[[0, 0], [10, 30], [20, 30], [30, 0]], 9, 3)?;
    /// // The middle of the curve, (15 28.75), in sixteenths.
    /// assert!(band.judge(240, 460)?.is_on());
    /// assert_eq!(Band::of_spline(&[[0, 0]], 9, 3), Err(Refusal::SplineLength { length: 2 }));
    /// # Ok::<(), Refusal>(())
    /// ```
    ///
    /// # Errors
    ///
    /// The refusals of [`spline_band`], but for [`Refusal::TooFewRecords`].
    pub fn of_spline(points: &[[i32; 2]], tolerance: i32, pieces: u32) -> Result<Band, Refusal> {
        let numbers = points.concat();
        Band::made(tolerance, pieces, |records| spline_band(&numbers, tolerance, pieces, records))
    }

    /// The band of an outline at the least tolerance at which it has so many leaves at most; `None` where it has more at
    /// every tolerance.
    ///
    /// ```
    /// use contour_band::Band;
    ///
    /// let arch = [3, 0, 0, 10, 30, 20, 30, 30, 0];
    /// let band = Band::tightest(&arch, 3, 1)?.expect("one leaf is enough");
    /// assert_eq!((band.tolerance(), band.report().leaves), (44, 1));
    /// assert_eq!(Band::tightest(&arch, 3, 0), Ok(None));
    /// # Ok::<(), contour_band::Refusal>(())
    /// ```
    ///
    /// # Errors
    ///
    /// The refusals of [`tightest`].
    pub fn tightest(
        outline: &(impl AsRef<[i32]> + ?Sized),
        pieces: u32,
        leaves: usize,
    ) -> Result<Option<Band>, Refusal> {
        let tolerance = tightest(outline.as_ref(), pieces, leaves)?;
        tolerance.map(|tolerance| Band::new(outline, tolerance, pieces)).transpose()
    }

    /// Puts a band round an outline whose degrees and coordinates are binary64 numbers, as [`binary64_band`] does. Each must be
    /// whole.
    ///
    /// ```
    /// use contour_band::{Band, Refusal};
    ///
    /// let band = Band::of_binary64(&[1.0, 0.0, 0.0, 30.0, -7.0], 44, 3)?;
    /// assert_eq!(band, Band::new(&[1, 0, 0, 30, -7], 44, 3)?);
    /// let refused = Band::of_binary64(&[1.0, 0.0, 0.0, 30.5, -7.0], 44, 3);
    /// assert_eq!(refused, Err(Refusal::NotWhole { index: 3 }));
    /// # Ok::<(), Refusal>(())
    /// ```
    ///
    /// # Errors
    ///
    /// The refusals of [`binary64_band`], but for [`Refusal::TooFewRecords`].
    pub fn of_binary64(outline: &[f64], tolerance: i32, pieces: u32) -> Result<Band, Refusal> {
        Band::made(tolerance, pieces, |records| binary64_band(outline, tolerance, pieces, records))
    }

    /// The band that an operation writes: it is asked how many leaves there are, then lent room for just so many.
    fn made(
        tolerance: i32,
        pieces: u32,
        mut write: impl FnMut(&mut [i32]) -> Result<Report, Refusal>,
    ) -> Result<Band, Refusal> {
        let leaves = match write(&mut []) {
            Err(Refusal::TooFewRecords { leaves }) => leaves,
            Err(refusal) => return Err(refusal),
            Ok(_) => unreachable!("what is accepted has a leaf, and an empty list no room for it"),
        };
        let mut records = vec![0; leaves * record_length(pieces)];
        let report = write(&mut records)?;
        Ok(Band { records, report, tolerance, pieces })
    }

    /// The counts of banding.
    ///
    /// ```
    /// let line = contour_band::Band::new(&[1, 0, 0, 0, 1], 2, 3)?;
    /// assert_eq!((line.report().curves, line.report().leaves, line.report().nodes), (1, 1, 1));
    /// # Ok::<(), contour_band::Refusal>(())
    /// ```
    pub fn report(&self) -> Report {
        self.report
    }

    /// The tolerance that the band was made with, in sixteenths of a stage unit.
    ///
    /// ```
    /// assert_eq!(contour_band::Band::new(&[1, 0, 0, 0, 1], 2, 3)?.tolerance(), 2);
    /// # Ok::<(), contour_band::Refusal>(())
    /// ```
    pub fn tolerance(&self) -> i32 {
        self.tolerance
    }

    /// How many straight pieces each leaf has, and so how many covers.
    ///
    /// ```
    /// assert_eq!(contour_band::Band::new(&[1, 0, 0, 0, 1], 2, 3)?.pieces(), 3);
    /// # Ok::<(), contour_band::Refusal>(())
    /// ```
    pub fn pieces(&self) -> u32 {
        self.pieces
    }

    /// The records of the leaves, one after the other, as [`band`] writes them.
    ///
    /// ```
    /// let line = contour_band::Band::new(&[1, 0, 0, 0, 1], 2, 1)?;
    /// assert_eq!(line.records(), [0, 1, 0, 0, 0, 0, 0, 0, 16, 16]);
    /// # Ok::<(), contour_band::Refusal>(())
    /// ```
    pub fn records(&self) -> &[i32] {
        &self.records
    }

    /// The leaves, by curve and then by parameter.
    ///
    /// ```
    /// let arch = contour_band::Band::new(&[3, 0, 0, 10, 30, 20, 30, 30, 0], 43, 3)?;
    /// assert_eq!(arch.leaves().map(|leaf| leaf.node).collect::<Vec<_>>(), [2, 3]);
    /// # Ok::<(), contour_band::Refusal>(())
    /// ```
    pub fn leaves(&self) -> impl Iterator<Item = Leaf<'_>> {
        leaves(&self.records, self.pieces)
    }

    /// The covers, leaf by leaf, as polygons: what is on the band is what some cover holds.
    ///
    /// ```
    /// let arch = contour_band::Band::new(&[3, 0, 0, 10, 30, 20, 30, 30, 0], 44, 3)?;
    /// let middle = arch.covers().nth(1).expect("a leaf has three covers");
    /// assert_eq!(middle.vertices, [[160, 319], [320, 319], [320, 363], [160, 363]]);
    /// # Ok::<(), contour_band::Refusal>(())
    /// ```
    pub fn covers(&self) -> impl Iterator<Item = Cover> + '_ {
        self.leaves().enumerate().flat_map(|(number, leaf)| {
            leaf.boxes.windows(2).enumerate().map(move |(cover, boxes)| {
                let mut vertices = [0; VERTEX_ROOM];
                let count = draw(boxes[0], boxes[1], &mut vertices).expect("boxes of a band are drawn");
                let vertices = vertices[..2 * count].chunks_exact(2).map(|vertex| [vertex[0], vertex[1]]);
                Cover { leaf: number, cover, vertices: vertices.collect() }
            })
        })
    }

    /// What the leaves cost.
    ///
    /// ```
    /// use contour_band::{Band, Cents};
    ///
    /// // One curve with one leaf: 140 cents and an eighth, 157.5, rounded up.
    /// assert_eq!(Band::new(&[1, 0, 0, 0, 1], 2, 3)?.quote(), Cents(158));
    /// # Ok::<(), contour_band::Refusal>(())
    /// ```
    pub fn quote(&self) -> Cents {
        quote(&self.records, self.pieces)
            .expect("the records of a band pass, and are no more than a quote takes")
    }

    /// Exchanges one curve of the outline that the band is of, and changes the band and the outline alike. The leaves of other
    /// curves keep their numbers and only move. The band is first compared with the outline's own, so an exchange takes about
    /// as long as banding anew.
    ///
    /// ```
    /// use contour_band::{Band, Outline, Refusal};
    ///
    /// let mut outline = Outline::new();
    /// outline.curve(&[[0, 0], [10, 30], [20, 30], [30, 0]])?.curve(&[[30, 0], [0, 0]])?;
    /// let mut band = Band::new(&outline, 44, 3)?;
    /// // The arch becomes higher, and then has two leaves.
    /// let report = band.exchange(&mut outline, 0, &[[0, 0], [10, 60], [20, 60], [30, 0]])?;
    /// assert_eq!((report.curves, report.leaves), (2, 3));
    /// assert_eq!(band, Band::new(&outline, 44, 3)?);
    /// // A curve that does not meet its neighbours is refused, and nothing changes.
    /// let refused = band.exchange(&mut outline, 0, &[[0, 0], [31, 0]]);
    /// assert_eq!(refused, Err(Refusal::Gap { index: 5 }));
    /// assert_eq!(band, Band::new(&outline, 44, 3)?);
    /// # Ok::<(), Refusal>(())
    /// ```
    ///
    /// # Errors
    ///
    /// The refusals of [`exchange`], but for [`Refusal::TooFewRecords`]. The band and the outline are then as they were.
    pub fn exchange(
        &mut self,
        outline: &mut Outline,
        curve: usize,
        points: &[[i32; 2]],
    ) -> Result<Report, Refusal> {
        let mut new = [0; 13];
        new[0] = points.len() as i32 - 1;
        for (number, given) in new[1..].iter_mut().zip(points.iter().flatten()) {
            *number = *given;
        }
        let given = self.records.len();
        // No curve has more than 256 leaves.
        self.records.resize(given + 256 * record_length(self.pieces), 0);
        let records = &mut self.records[..];
        let exchanged = exchange(outline.numbers(), self.tolerance, self.pieces, curve, new, given, records);
        self.report = exchanged.unwrap_or(self.report);
        self.records.truncate(self.report.leaves * record_length(self.pieces));
        exchanged.map(|report| {
            outline.replace(curve, points);
            report
        })
    }

    /// Judges a point, in sixteenths of a stage unit.
    ///
    /// ```
    /// let line = contour_band::Band::new(&[1, 0, 0, 0, 1], 2, 3)?;
    /// assert!(line.judge(0, 3)?.is_on());
    /// assert!(!line.judge(0, 17)?.is_on());
    /// # Ok::<(), contour_band::Refusal>(())
    /// ```
    ///
    /// # Errors
    ///
    /// [`Refusal::PointX`] and [`Refusal::PointY`] where a coordinate is beyond ±[`FARTHEST`](crate::FARTHEST).
    pub fn judge(&self, x: i32, y: i32) -> Result<Judgement, Refusal> {
        judge(&self.records, self.pieces, x, y)
    }

    /// Judges many points at once, far faster than one by one. A point that is refused does not end it.
    ///
    /// ```
    /// use contour_band::{Band, Judgement, Refusal};
    ///
    /// let line = Band::new(&[1, 0, 0, 0, 1], 2, 3)?;
    /// let judgements = line.judge_points(&[[0, 16], [0, 17], [i32::MIN, 0]]);
    /// let on = Judgement::On { leaf: 0, cover: 2 };
    /// assert_eq!(judgements, [Ok(on), Ok(Judgement::Off), Err(Refusal::PointX)]);
    /// # Ok::<(), Refusal>(())
    /// ```
    pub fn judge_points(&self, points: &[[i32; 2]]) -> Vec<Result<Judgement, Refusal>> {
        let mut answers = vec![0; 3 * points.len()];
        let judged = judge_points(&self.records, self.pieces, &points.concat(), &mut answers);
        judged.expect("the records of a band pass, and there is room for the answers").collect()
    }
}
