//! What both programs of the benchmark share: the inputs, and the method that the engine replaces.

#![forbid(unsafe_code)]

pub mod changes;
pub mod outlines;
pub mod pairs;
pub mod points;
pub mod sampled;
