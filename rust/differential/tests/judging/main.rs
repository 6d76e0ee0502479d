//! The proved engine against the plain one: judging.

mod bands;
mod damaged;
mod examples;
mod finest;
mod first;
mod largest;
mod many;
mod most_records;
mod pieces;
mod polygons;
mod quotes;
mod random;
mod small;
mod splines;
mod together;
