//! Contour bands of Bézier outlines, by the proved engine.
//!
//! An outline is curves of degree 1 to 5, each from where the one before it ends, by their control points in stage units.
//! A [`Band`] encloses it in boxes whose diagonals are at most a tolerance long: for each leaf, which is a stretch of a
//! curve, m straight pieces with a box at each of their m + 1 ends. The caller chooses m, 1 to 8, or 3 to 8 where a curve
//! has degree 4 or 5. A measured point is on the band where a cover, which is the convex hull of two neighbouring boxes,
//! holds it. Then every point of the curves is on, and every point that is on lies within the tolerance of a curve.
//! Tolerances, boxes and measured points are in sixteenths of a stage unit.
//!
//! ```
//! use contour_band::{Band, Judgement, Outline, Refusal};
//!
//! let mut outline = Outline::new();
//! outline.curve(&[[0, 0], [10, 30], [20, 30], [30, 0]])?.curve(&[[30, 0], [0, 0]])?;
//! let band = Band::new(&outline, 44, 3)?;
//! assert_eq!((band.report().curves, band.report().leaves), (2, 2));
//!
//! // The middle cover of the first leaf holds one point, and the next is outside.
//! assert_eq!(band.judge(240, 363), Ok(Judgement::On { leaf: 0, cover: 1 }));
//! assert_eq!(band.judge(240, 364), Ok(Judgement::Off));
//! # Ok::<(), Refusal>(())
//! ```
//!
//! # Without an allocation
//!
//! The engine itself allocates nothing: its operations write to lists that the caller lends. [`band`] bands an outline
//! that is given as numbers, [`station_band`] does the same for the bench station, which takes less, and [`spline_band`]
//! for a uniform cubic B-spline. [`foretell`] says beforehand how many leaves an outline can have, and [`tightest`] at
//! which tolerance it first has no more than so many. [`leaves`] reads the records; [`judge`] judges a point against them,
//! [`judge_points`] many at once, and [`band_and_judge`] bands and judges a point. [`quote`] says what the leaves cost.
//! [`draw`] draws the convex hull of two boxes.
//!
//! ```
//! use contour_band::{band, judge, leaves, record_length, Judgement, Refusal};
//!
//! /// How many straight pieces a leaf has.
//! const M: u32 = 3;
//!
//! let outline = [3, 0, 0, 10, 30, 20, 30, 30, 0];
//! let mut records = [0; record_length(M)];
//! let report = band(&outline, 44, M, &mut records)?;
//! assert_eq!((report.curves, report.leaves, report.nodes), (1, 1, 1));
//!
//! let leaf = leaves(&records, M).next().unwrap();
//! assert_eq!((leaf.curve, leaf.node), (0, 1));
//! assert_eq!((leaf.boxes[1].y.low, leaf.boxes[1].y.high), (319, 363));
//! assert_eq!(judge(&records, M, 240, 363), Ok(Judgement::On { leaf: 0, cover: 1 }));
//!
//! // At 43 there are two leaves, and a refusal leaves the list as it was.
//! assert_eq!(band(&outline, 43, M, &mut records), Err(Refusal::TooFewRecords { leaves: 2 }));
//! assert_eq!(records[0..2], [0, 1]);
//! # Ok::<(), Refusal>(())
//! ```
//!
//! The engine takes any numbers and any lengths and always returns. It keeps nothing: every list is the caller's, and
//! calls from several threads do not disturb one another. What breaks a bound is a [`Refusal`], with a number, a spot and
//! words.
//!
//! # Link it
//!
//! The crate links the engine's archive, which `bash tools/archive` at the root of the repository makes. A crate of
//! your own names it by its path, `contour-band = { path = ".../rust/contour-band" }`. To link another archive, name the
//! folder of its `libcontour.a` in `CONTOUR_BAND_LIB_DIR`, by a whole path or from where cargo is called.

mod band;
mod cover;
mod exchange;
mod foretell;
mod judge;
mod leaf;
mod library;
mod outline;
mod owned;
mod quote;
mod refusal;
mod tightest;
mod units;

pub use band::{band, binary64_band, spline_band, station_band, Report, STATION_CURVES, STATION_LEAVES};
pub use cover::{draw, VERTEX_ROOM};
pub use exchange::{exchange, CURVE_LENGTH};
pub use foretell::{foretell, Foretold};
pub use judge::{band_and_judge, judge, judge_points, Judgement, Outcome, FARTHEST};
pub use leaf::{leaves, record_length, Bounds, BoxBounds, Leaf};
pub use outline::Outline;
pub use owned::{Band, Cover};
pub use quote::{quote, Cents};
pub use refusal::Refusal;
pub use tightest::tightest;
pub use units::{box_short, box_units, Short, Units};

/// The version of the archive that is linked, as a number: 10,000 × its first, 100 × its second and its third part.
///
/// ```
/// assert_eq!(contour_band::version(), 100);
/// ```
pub fn version() -> u32 {
    library::version()
}
