//! The proved engine against the plain one: drawing covers.

mod damaged;
mod random;
mod small;
