//! Compares the proved engine with the plain one: the same input to both, then every answer and
//! every number of the lent lists. The comparisons themselves are the tests of this crate.

#![forbid(unsafe_code)]

pub mod banding;
pub mod binary64;
pub mod covers;
pub mod curves;
pub mod drawing;
pub mod exchanging;
pub mod foretelling;
pub mod judging;
pub mod leaf_lists;
pub mod outlines;
pub mod pieces;
pub mod polygons;
pub mod program;
pub mod random;
pub mod refusals;
pub mod splines;
pub mod text;
pub mod texts;
pub mod tightest;
pub mod together;
pub mod wide;
