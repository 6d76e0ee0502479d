//! The proved engine against the plain one: banding.

mod damaged;
mod degrees;
mod edges;
mod examples;
mod largest;
mod meeting;
mod most_curves;
mod random;
mod short_lists;
mod splines;
mod station;
