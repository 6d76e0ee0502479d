//! A plain engine for contour bands, written from documents 01 and 02 alone. It shares nothing with the
//! proved engine, and the two are compared with each other, number by number.
//!
//! [`band`] encloses an outline of Bézier curves in boxes, with m pieces to a leaf, and [`station_band`] a small
//! one; [`spline_band`] encloses a B-spline, [`binary64_band`] an outline in binary64. [`foretell`] says beforehand how many leaves there can be, and [`tightest`]
//! at which tolerance there are first no more than so many. [`exchange`] puts another curve in the place of one of a banded
//! outline. [`judge`] says whether a point lies on what they cover,
//! [`band_and_judge`] does both, and [`draw`] draws the hull of two boxes. [`box_units`] and [`box_short`] give a box in
//! binary64. [`text::answer`] is the text program. The
//! modules follow the documents: the checks of an outline, of a degree and of m, the curves of a B-spline, halving, the
//! rows and the enclosure, the walk; foretelling; the tightest band; the checks of a leaf list and a point, covers,
//! judging; drawing; the lines of a text, its answer.

#![forbid(unsafe_code)]

mod band;
mod binary64;
mod cover;
mod curve;
mod degree;
#[cfg(test)]
mod documented;
mod enclosure;
#[cfg(test)]
mod exact;
#[cfg(test)]
mod examples;
mod exchange;
mod foretell;
mod form;
mod hull;
mod judge;
mod leaf_list;
mod outline;
mod pieces;
mod quote;
mod refusal;
mod rows;
mod spline;
pub mod text;
mod tightest;

pub use band::{band, binary64_band, spline_band, station_band, Report};
pub use binary64::{box_short, box_units, Short};
pub use exchange::exchange;
pub use foretell::{foretell, Foretold};
pub use hull::draw;
pub use judge::{band_and_judge, judge, judge_points, Judgement};
pub use pieces::record_length;
pub use quote::quote;
pub use refusal::Refusal;
pub use tightest::{tightest, tightest_by_trial};
