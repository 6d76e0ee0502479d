//! The proved engine against the plain one: one curve of an outline exchanged.

mod chain;
mod damaged;
mod degrees;
mod examples;
mod most_curves;
mod random;
mod records;
