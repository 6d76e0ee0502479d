//! An outline file: a tolerance, and curves or a B-spline.

use crate::failure::Failure;
use crate::forms::{self, Point};
use crate::input;
use contour_band::{Band, Refusal};
use std::ffi::OsStr;

/// What an outline file has.
pub struct Drawing {
    /// How the file is called in words.
    pub name: String,
    /// The tolerance of its first line, where it has one.
    pub tolerance: Option<i32>,
    /// The line of its first curve, or of its spline.
    first_line: usize,
    /// What it draws.
    pub shape: Shape,
}

/// What is drawn.
pub enum Shape {
    /// Bézier curves.
    Curves(Curves),
    /// A uniform cubic B-spline, by its points in stage units.
    Spline(Vec<Point>),
}

/// Bézier curves as the engine takes them.
#[derive(Default)]
pub struct Curves {
    /// For each curve its degree, then x and y of each control point.
    pub numbers: Vec<i32>,
    /// The same in binary64, where the file is read so; the numbers above are then as near as whole numbers come, which is
    /// exact where banding accepts.
    binary64: Vec<f64>,
    /// The index of each curve's degree.
    starts: Vec<usize>,
}

impl Curves {
    /// Adds the curve of a line; `None` where the line is no curve of 2 to 6 points.
    fn add(&mut self, line: &[u8]) -> Option<()> {
        let points = forms::points(line, "curve").filter(|points| (2..=6).contains(&points.len()))?;
        self.push(&points);
        Some(())
    }

    /// Adds the curve of a line whose numbers may have a decimal point.
    fn add_binary64(&mut self, line: &[u8]) -> Option<()> {
        let points = forms::decimal_points(line, "curve").filter(|points| (2..=6).contains(&points.len()))?;
        self.binary64.push(points.len() as f64 - 1.0);
        self.binary64.extend(points.iter().flatten());
        let near: Vec<Point> = points.iter().map(|point| point.map(|number| number as i32)).collect();
        self.push(&near);
        Some(())
    }

    fn push(&mut self, points: &[Point]) {
        self.starts.push(self.numbers.len());
        self.numbers.push(points.len() as i32 - 1);
        self.numbers.extend(points.iter().flatten());
    }

    /// How many curves there are.
    pub fn count(&self) -> usize {
        self.starts.len()
    }

    /// The control points of each curve.
    pub fn points(&self) -> impl Iterator<Item = Vec<Point>> + '_ {
        self.starts.iter().map(|&start| {
            let numbers = &self.numbers[start + 1..][..2 * (self.numbers[start] as usize + 1)];
            numbers.chunks_exact(2).map(|point| [point[0], point[1]]).collect()
        })
    }

    /// The number of the curve that has the number at this index.
    fn curve_at(&self, index: usize) -> usize {
        self.starts.partition_point(|&start| start <= index) - 1
    }
}

impl Drawing {
    /// Reads an outline file, whose first line must have a tolerance unless one is given beside it.
    /// With `binary64` the numbers of curves may have a decimal point.
    pub fn read(file: &OsStr, tolerance_needed: bool, binary64: bool) -> Result<Drawing, Failure> {
        let name = input::name(file);
        let text = input::read(file)?;
        let mut lines = (1..).zip(forms::lines(&text)).peekable();
        let tolerance = lines.peek().and_then(|(_, line)| forms::tolerance(line));
        if tolerance.is_some() {
            lines.next();
        } else if tolerance_needed {
            return Err(format!("{name}, line 1: (tolerance T) is expected").into());
        }
        let first_line = 1 + usize::from(tolerance.is_some());
        if let Some(points) = lines.peek().and_then(|(_, line)| forms::points(line, "spline")) {
            return match lines.nth(1) {
                Some((line, _)) => Err(format!("{name}, line {line}: a spline stands alone").into()),
                None => Ok(Drawing { name, tolerance, first_line, shape: Shape::Spline(points) }),
            };
        }
        let mut curves = Curves::default();
        for (number, line) in lines {
            let added = if binary64 { curves.add_binary64(line) } else { curves.add(line) };
            added.ok_or_else(|| expected(&name, number, number == first_line))?;
        }
        Ok(Drawing { name, tolerance, first_line, shape: Shape::Curves(curves) })
    }

    /// The band of what is drawn.
    pub fn band(&self, tolerance: i32, pieces: u32) -> Result<Band, Refusal> {
        match &self.shape {
            Shape::Curves(curves) if !curves.binary64.is_empty() => {
                Band::of_binary64(&curves.binary64, tolerance, pieces)
            }
            Shape::Curves(curves) => Band::new(&curves.numbers, tolerance, pieces),
            Shape::Spline(points) => Band::of_spline(points, tolerance, pieces),
        }
    }

    /// A refusal of this file in words, with the line that is at fault.
    pub fn refused(&self, refusal: Refusal) -> Failure {
        let line = match (refusal, &self.shape) {
            (Refusal::EmptyOutline, _) => None,
            (Refusal::Tolerance, _) => Some(1),
            (_, Shape::Spline(_)) => Some(self.first_line),
            (Refusal::TooWide { curve, .. }, _) => Some(self.first_line + curve),
            (_, Shape::Curves(curves)) => Some(self.first_line + curves.curve_at(refusal.spot() as usize)),
        };
        let place = line.map_or(String::new(), |line| format!(", line {line}"));
        Failure::Words(format!("{}{place}: {refusal}", self.name))
    }
}

/// That a line has no curve; the first may have a spline.
fn expected(name: &str, line: usize, first: bool) -> Failure {
    let spline = if first { " or (spline (x y) ..)" } else { "" };
    format!("{name}, line {line}: (curve (x y) (x y) ..) of 2 to 6 points{spline} is expected").into()
}
