//! The proved engine against the plain one: the tightest band that fits.

mod damaged;
mod edges;
mod examples;
mod looser;
mod random;
mod small;
