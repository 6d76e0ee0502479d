//! kurbo's and lyon_geom's way: flattening, and the distance of a point from a curve, in binary64.

use kurbo::{CubicBez, Line, ParamCurveExtrema, ParamCurveNearest, PathEl, Point, QuadBez, Rect};
use lyon_geom::euclid::default::Point2D;
use lyon_geom::{CubicBezierSegment, QuadraticBezierSegment};
use peers::{Curve, Near};

/// kurbo's flattening of curves, as points written to a list.
pub fn kurbo_flatten(curves: &[Curve], tolerance: f64, out: &mut Curve) {
    out.clear();
    for curve in curves {
        let p = |i: usize| Point::new(curve[i].0, curve[i].1);
        let end = match curve.len() {
            2 => PathEl::LineTo(p(1)),
            3 => PathEl::QuadTo(p(1), p(2)),
            _ => PathEl::CurveTo(p(1), p(2), p(3)),
        };
        kurbo::flatten([PathEl::MoveTo(p(0)), end], tolerance, |element| match element {
            PathEl::MoveTo(p) | PathEl::LineTo(p) => out.push((p.x, p.y)),
            _ => {}
        });
    }
}

/// lyon_geom's flattening of curves, as points written to a list.
pub fn lyon_flatten(curves: &[Curve], tolerance: f64, out: &mut Curve) {
    out.clear();
    for curve in curves {
        let p = |i: usize| Point2D::new(curve[i].0, curve[i].1);
        out.push(curve[0]);
        match curve.len() {
            2 => out.push(curve[1]),
            3 => QuadraticBezierSegment { from: p(0), ctrl: p(1), to: p(2) }
                .for_each_flattened(tolerance, &mut |q| out.push((q.x, q.y))),
            _ => CubicBezierSegment { from: p(0), ctrl1: p(1), ctrl2: p(2), to: p(3) }
                .for_each_flattened(tolerance, &mut |q| out.push((q.x, q.y))),
        }
    }
}

/// A curve as kurbo has it.
enum Segment {
    Line(Line),
    Quadratic(QuadBez),
    Cubic(CubicBez),
}

/// The curves with their boxes.
fn segments(curves: &[Curve]) -> Vec<(Segment, Rect)> {
    let one = |curve: &Curve| {
        let p = |i: usize| Point::new(curve[i].0, curve[i].1);
        match curve.len() {
            2 => (Segment::Line(Line::new(p(0), p(1))), Rect::from_points(p(0), p(1))),
            3 => {
                let own = QuadBez::new(p(0), p(1), p(2));
                (Segment::Quadratic(own), own.bounding_box())
            }
            _ => {
                let own = CubicBez::new(p(0), p(1), p(2), p(3));
                (Segment::Cubic(own), own.bounding_box())
            }
        }
    };
    curves.iter().map(one).collect()
}

/// Whether a point is within the tolerance of some curve, by kurbo's nearest point. Where BOXED, curves whose box is
/// farther are passed over.
pub fn nearest<const BOXED: bool>(curves: &[Curve], tolerance: f64) -> Near {
    let segments = segments(curves);
    Box::new(move |x, y| {
        let (point, accuracy) = (Point::new(x, y), 0.01);
        segments.iter().any(|(segment, b)| {
            let apart =
                x < b.x0 - tolerance || x > b.x1 + tolerance || y < b.y0 - tolerance || y > b.y1 + tolerance;
            if BOXED && apart {
                return false;
            }
            let (_, squared) = match segment {
                Segment::Line(own) => own.nearest(point, accuracy),
                Segment::Quadratic(own) => own.nearest(point, accuracy),
                Segment::Cubic(own) => own.nearest(point, accuracy),
            };
            squared <= tolerance * tolerance
        })
    })
}
