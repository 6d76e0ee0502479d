//! The outline as a path: curves of degree 1 to 3 as what they are, others as fine polylines.

use super::frame::Frame;
use crate::drawing::Shape;
use crate::forms::Point;
use std::fmt::Write;

/// How many lines stand for a curve of degree 4 or 5, or for one of a B-spline.
pub const LINES: usize = 64;

/// The path of an outline, as the attribute `d` has it.
pub fn outline(shape: &Shape, frame: &Frame) -> String {
    let mut path = String::new();
    match shape {
        Shape::Curves(curves) => {
            for points in curves.points() {
                curve(&mut path, &points, frame);
            }
        }
        Shape::Spline(points) => {
            for four in points.windows(4) {
                let points = bezier(four);
                polyline(&mut path, &points, frame);
            }
        }
    }
    path
}

/// Whether a shape has curves that are drawn as polylines.
pub fn has_polylines(shape: &Shape) -> bool {
    match shape {
        Shape::Curves(curves) => curves.points().any(|points| points.len() > 4),
        Shape::Spline(_) => true,
    }
}

/// Adds a curve by its control points, in stage units.
fn curve(path: &mut String, points: &[Point], frame: &Frame) {
    let letter = match points.len() {
        2 => "L",
        3 => "Q",
        4 => "C",
        _ => {
            let points: Vec<[f64; 2]> = points.iter().map(|point| point.map(f64::from)).collect();
            return polyline(path, &points, frame);
        }
    };
    let mut places = points.iter().map(|point| frame.place(point.map(|number| 16 * number)));
    let [x, y] = places.next().expect("a curve has points");
    begin(path, &format!("{x} {y}"));
    path.push_str(letter);
    let places: Vec<String> = places.map(|[x, y]| format!("{x} {y}")).collect();
    path.push_str(&places.join(" "));
}

/// Begins a path at a place; a curve that is not the first goes on from the one before it.
fn begin(path: &mut String, place: &str) {
    if path.is_empty() {
        let _ = write!(path, "M{place}");
    }
}

/// Adds a curve as a polyline.
fn polyline(path: &mut String, points: &[[f64; 2]], frame: &Frame) {
    for i in 0..=LINES {
        let [x, y] = value(points, i as f64 / LINES as f64).map(|number| 16.0 * number);
        let [x, y] = frame.place_between([x, y]);
        match i {
            0 => begin(path, &format!("{x} {y}")),
            _ => {
                let _ = write!(path, "L{x} {y}");
            }
        }
    }
}

/// The point of a curve at a parameter, by de Casteljau's rule.
fn value(points: &[[f64; 2]], t: f64) -> [f64; 2] {
    let mut points = points.to_vec();
    for count in (1..points.len()).rev() {
        for i in 0..count {
            points[i] = [0, 1].map(|axis| (1.0 - t) * points[i][axis] + t * points[i + 1][axis]);
        }
    }
    points[0]
}

/// The control points of the cubic curve of four neighbouring points of a B-spline.
fn bezier(four: &[Point]) -> [[f64; 2]; 4] {
    let mixed = |weights: [f64; 4]| {
        [0, 1].map(|axis| (0..4).map(|i| weights[i] * f64::from(four[i][axis])).sum::<f64>() / 6.0)
    };
    [[1.0, 4.0, 1.0, 0.0], [0.0, 4.0, 2.0, 0.0], [0.0, 2.0, 4.0, 0.0], [0.0, 1.0, 4.0, 1.0]].map(mixed)
}
