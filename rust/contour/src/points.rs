//! A file of measured points, one a line.

use crate::failure::Failure;
use crate::forms::{self, Point};
use crate::input;
use std::ffi::OsStr;

/// The points of a file, in sixteenths of a stage unit.
pub fn read(file: &OsStr) -> Result<Vec<Point>, Failure> {
    let text = input::read(file)?;
    let point = |(i, line)| match forms::points(line, "point").as_deref() {
        Some(&[point]) => Ok(point),
        _ => Err(format!("{}, line {}: (point (x y)) is expected", input::name(file), i + 1).into()),
    };
    forms::lines(&text).enumerate().map(point).collect()
}
