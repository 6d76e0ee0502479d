//! Published rules in binary64, written here: they are nobody's library, and stand in for one.
//!
//! Flattening by even steps has as many as the second differences ask for: a chord of a curve of degree d over a step h of
//! its parameter is within h² × d × (d − 1) × M / 8 of it, where M is the length of its largest second difference (Wang's
//! bound). Flattening by parabolas takes a cubic curve as quadratic ones, as many as the third difference asks for, and
//! steps along each by an estimate of the integral of the root of its curvature (Levien's).

use crate::{Curve, Near};

/// A point, or the difference of two.
type Pair = (f64, f64);

fn minus(a: Pair, b: Pair) -> Pair {
    (a.0 - b.0, a.1 - b.1)
}

fn dot(a: Pair, b: Pair) -> f64 {
    a.0 * b.0 + a.1 * b.1
}

/// A curve of degree 1 to 3 as the coefficients of a polynomial, the highest last.
fn polynomial(curve: &[Pair]) -> [Pair; 4] {
    let (p, mut c) = (curve, [(0.0, 0.0); 4]);
    c[0] = p[0];
    match p.len() {
        2 => c[1] = minus(p[1], p[0]),
        3 => {
            c[1] = (2.0 * (p[1].0 - p[0].0), 2.0 * (p[1].1 - p[0].1));
            c[2] = (p[0].0 - 2.0 * p[1].0 + p[2].0, p[0].1 - 2.0 * p[1].1 + p[2].1);
        }
        _ => {
            c[1] = (3.0 * (p[1].0 - p[0].0), 3.0 * (p[1].1 - p[0].1));
            c[2] = (3.0 * (p[0].0 - 2.0 * p[1].0 + p[2].0), 3.0 * (p[0].1 - 2.0 * p[1].1 + p[2].1));
            c[3] = third_difference(p);
        }
    }
    c
}

fn third_difference(p: &[Pair]) -> Pair {
    (p[3].0 - 3.0 * p[2].0 + 3.0 * p[1].0 - p[0].0, p[3].1 - 3.0 * p[2].1 + 3.0 * p[1].1 - p[0].1)
}

fn value(c: &[Pair; 4], t: f64) -> Pair {
    (((c[3].0 * t + c[2].0) * t + c[1].0) * t + c[0].0, ((c[3].1 * t + c[2].1) * t + c[1].1) * t + c[0].1)
}

/// Flattening by even steps of the parameter.
pub fn even(curves: &[Curve], tolerance: f64, out: &mut Curve) {
    out.clear();
    for curve in curves {
        let degree = curve.len() - 1;
        let second = |w: &[Pair]| {
            let difference = minus(minus(w[2], w[1]), minus(w[1], w[0]));
            dot(difference, difference)
        };
        let largest = curve.windows(3).map(second).fold(0.0, f64::max).sqrt();
        let steps =
            ((degree * (degree.max(1) - 1)) as f64 * largest / (8.0 * tolerance)).sqrt().ceil().max(1.0);
        let (c, n) = (polynomial(curve), steps as usize);
        out.push(curve[0]);
        (1..n).for_each(|k| out.push(value(&c, k as f64 / steps)));
        out.push(curve[degree]);
    }
}

/// About the integral of (1 + 4 x²) to the power −1/4, from 0.
fn integral(x: f64) -> f64 {
    const D: f64 = 0.67;
    x / (1.0 - D + (D.powi(4) + 0.25 * x * x).sqrt().sqrt())
}

/// About the inverse of it.
fn inverse(x: f64) -> f64 {
    const B: f64 = 0.39;
    x * (1.0 - B + (B * B + 0.25 * x * x).sqrt())
}

/// The points of a quadratic curve behind its first.
fn parabola_points(p: [Pair; 3], tolerance: f64, out: &mut Curve) {
    let (first, last) = (minus(p[1], p[0]), minus(p[2], p[1]));
    let bend = minus(first, last);
    let across = minus(p[2], p[0]);
    let cross = across.0 * bend.1 - across.1 * bend.0;
    let (x0, x2) = (dot(first, bend) / cross, dot(last, bend) / cross);
    let scale = (cross / (dot(bend, bend).sqrt() * (x2 - x0))).abs();
    let (a0, a2) = (integral(x0), integral(x2));
    let steps = (0.5 * (a2 - a0).abs() * (scale / tolerance).sqrt()).ceil();
    // A straight one has no such number.
    let steps = if steps.is_finite() { steps.max(1.0) } else { 1.0 };
    let (u0, u2) = (inverse(a0), inverse(a2));
    for k in 1..steps as usize {
        let t = (inverse(a0 + (a2 - a0) * k as f64 / steps) - u0) / (u2 - u0);
        let s = 1.0 - t;
        let mix = |a: f64, b: f64, c: f64| s * s * a + 2.0 * s * t * b + t * t * c;
        out.push((mix(p[0].0, p[1].0, p[2].0), mix(p[0].1, p[1].1, p[2].1)));
    }
    out.push(p[2]);
}

/// Flattening by parabolas: a tenth of the distance for the quadratic curves, the rest for the pieces.
pub fn parabola(curves: &[Curve], tolerance: f64, out: &mut Curve) {
    out.clear();
    for curve in curves {
        out.push(curve[0]);
        match curve.len() {
            2 => out.push(curve[1]),
            3 => parabola_points([curve[0], curve[1], curve[2]], tolerance, out),
            _ => {
                let third = third_difference(curve);
                let near = 0.1 * tolerance;
                let parts = (dot(third, third) / (432.0 * near * near)).powf(1.0 / 6.0).ceil().max(1.0);
                let c = polynomial(curve);
                let slope = |t: f64| {
                    let one = |a: f64, b: f64, d: f64| (3.0 * a * t + 2.0 * b) * t + d;
                    (one(c[3].0, c[2].0, c[1].0), one(c[3].1, c[2].1, c[1].1))
                };
                for k in 0..parts as usize {
                    let (from, to) = (k as f64 / parts, (k + 1) as f64 / parts);
                    let (a, b, h) = (value(&c, from), value(&c, to), 0.25 / parts);
                    let (sa, sb) = (slope(from), slope(to));
                    // The control point that the slopes at both ends give on average.
                    let middle =
                        (0.5 * (a.0 + b.0) + h * (sa.0 - sb.0), 0.5 * (a.1 + b.1) + h * (sa.1 - sb.1));
                    parabola_points([a, middle, b], tolerance - near, out);
                }
            }
        }
    }
}

/// Whether a point is within a distance of some curve: of 17 parameters of each the nearest, and four steps of Newton's
/// from it. Where BOXED, curves whose control points' box is farther are passed over.
pub fn nearest<const BOXED: bool>(curves: &[Curve], tolerance: f64) -> Near {
    let bound = |curve: &Curve, of: fn(&Pair) -> f64| {
        let all = || curve.iter().map(of);
        (all().fold(f64::INFINITY, f64::min) - tolerance, all().fold(f64::NEG_INFINITY, f64::max) + tolerance)
    };
    let own: Vec<_> = curves.iter().map(|c| (polynomial(c), bound(c, |p| p.0), bound(c, |p| p.1))).collect();
    Box::new(move |x, y| {
        own.iter().any(|(c, across, up)| {
            let inside = across.0 <= x && x <= across.1 && up.0 <= y && y <= up.1;
            (!BOXED || inside) && squared_distance(c, (x, y)) <= tolerance * tolerance
        })
    })
}

fn squared_distance(c: &[Pair; 4], point: Pair) -> f64 {
    let away = |t: f64| minus(value(c, t), point);
    let squared = |t: f64| dot(away(t), away(t));
    let mut t = 0.0;
    for k in 1..=16 {
        let next = f64::from(k) / 16.0;
        if squared(next) < squared(t) {
            t = next;
        }
    }
    let mut least = squared(t);
    for _ in 0..4 {
        let one = |a: f64, b: f64, d: f64| (3.0 * a * t + 2.0 * b) * t + d;
        let slope = (one(c[3].0, c[2].0, c[1].0), one(c[3].1, c[2].1, c[1].1));
        let bend = (6.0 * c[3].0 * t + 2.0 * c[2].0, 6.0 * c[3].1 * t + 2.0 * c[2].1);
        let (falls, turns) = (dot(away(t), slope), dot(slope, slope) + dot(away(t), bend));
        if turns <= 0.0 {
            break;
        }
        t = (t - falls / turns).clamp(0.0, 1.0);
        least = least.min(squared(t));
    }
    least
}
