//! The proved engine against the plain one: foretelling.

mod damaged;
mod edges;
mod examples;
mod random;
