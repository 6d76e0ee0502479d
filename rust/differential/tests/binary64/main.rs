//! The proved engine against the plain one: outlines and boxes in binary64.

mod boxes;
mod integers;
mod specials;
