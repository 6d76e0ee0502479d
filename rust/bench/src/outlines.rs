//! The outlines that the engines are timed on.

use std::f64::consts::TAU;

/// 64 cubic curves round a circle that swing in and out, nearly as far as T 3 accepts with three pieces: at
/// T 3 most leaves are then at depth 8. With one piece T 16 is accepted, and T 3 is not.
pub fn cubics() -> Vec<i32> {
    let mut outline = Vec::new();
    for i in 0..64 {
        let at = |step: f64, radius: f64| {
            let angle = TAU * (f64::from(i) + step) / 64.0;
            [(radius * angle.cos()).round() as i32, (radius * angle.sin()).round() as i32]
        };
        outline.push(3);
        outline.extend(at(0.0, 500_000.0));
        outline.extend(at(0.4, 513_000.0));
        outline.extend(at(0.6, 487_000.0));
        outline.extend(at(1.0, 500_000.0));
    }
    outline
}

/// So many of them, the circle gone round as often as it takes: it ends where it begins.
pub fn rounds(curves: usize) -> Vec<i32> {
    cubics().into_iter().cycle().take(9 * curves).collect()
}

/// The points of a closed B-spline of 64 curves that swings in and out. Each coordinate is a multiple of 6, so the control
/// points of its curves are whole.
pub fn spline() -> Vec<i32> {
    let point = |i: i32| {
        let radius = if i % 2 == 0 { 110_000.0 } else { 100_000.0 };
        let angle = TAU * f64::from(i) / 64.0;
        [angle.cos(), angle.sin()].map(|z| 6 * (radius * z / 6.0).round() as i32)
    };
    (0..67).flat_map(|i| point(i % 64)).collect()
}

/// The curves of that B-spline as an outline.
pub fn splined() -> Vec<i32> {
    let points = spline();
    let mut outline = Vec::new();
    for neighbours in points.windows(8).step_by(2) {
        let control = |weights: [i32; 4]| {
            [0, 1].map(|z| {
                weights.iter().zip(neighbours[z..].iter().step_by(2)).map(|(w, b)| w * (b / 6)).sum::<i32>()
            })
        };
        outline.push(3);
        outline
            .extend([[1, 4, 1, 0], [0, 4, 2, 0], [0, 2, 4, 0], [0, 1, 4, 1]].into_iter().flat_map(control));
    }
    outline
}

/// 64 quadratic arches whose leaves at T 44 are all at one depth, 0 to 8, with three pieces. A halving makes the second
/// difference of a quadratic a quarter of what it was, everywhere alike.
pub fn arches(depth: u32) -> Vec<i32> {
    let height = 15 * 4_i32.pow(depth);
    (0..64).flat_map(|i| [2, 1_000 * i, 0, 1_000 * i + 500, height, 1_000 * i + 1_000, 0]).collect()
}

/// 64 curves of degree 4 round a circle that swing out and in, nearly as far as T 3 accepts with three pieces.
pub fn quartics() -> Vec<i32> {
    swinging(4, 45.0)
}

/// 64 curves of degree 5 round a circle that swing out and in, nearly as far as T 3 accepts with three pieces.
pub fn quintics() -> Vec<i32> {
    swinging(5, 35.0)
}

/// 64 curves of degree 4 or 5 round a circle. They are halved four times at most, so both the circle and the
/// swing are smaller than with cubic curves.
fn swinging(degree: i32, swing: f64) -> Vec<i32> {
    let mut outline = Vec::new();
    for i in 0..64 {
        outline.push(degree);
        for j in 0..=degree {
            let along = f64::from(j) / f64::from(degree);
            let angle = TAU * (f64::from(i) + along) / 64.0;
            let radius = 20_000.0 + swing * (TAU * along).sin();
            outline.extend([(radius * angle.cos()).round() as i32, (radius * angle.sin()).round() as i32]);
        }
    }
    outline
}

/// A punch of 20 curves in stage units: straight sides, round corners, and a notch with a curved
/// floor. Each curve begins where the one before ends.
#[rustfmt::skip]
pub fn nominal() -> Vec<i32> {
    let curves: [&[i32]; 20] = [
        &[1, 2_000, 0, 14_000, 0],
        &[3, 14_000, 0, 15_105, 0, 16_000, 895, 16_000, 2_000],
        &[1, 16_000, 2_000, 16_000, 6_500],
        &[2, 16_000, 6_500, 16_000, 7_000, 15_500, 7_000],
        &[1, 15_500, 7_000, 13_500, 7_000],
        &[2, 13_500, 7_000, 13_000, 7_000, 13_000, 7_500],
        &[3, 13_000, 7_500, 12_400, 8_600, 12_400, 9_400, 13_000, 10_500],
        &[2, 13_000, 10_500, 13_000, 11_000, 13_500, 11_000],
        &[1, 13_500, 11_000, 15_500, 11_000],
        &[2, 15_500, 11_000, 16_000, 11_000, 16_000, 11_500],
        &[1, 16_000, 11_500, 16_000, 16_000],
        &[3, 16_000, 16_000, 16_000, 17_105, 15_105, 18_000, 14_000, 18_000],
        &[3, 14_000, 18_000, 11_000, 18_900, 9_500, 17_100, 8_000, 18_000],
        &[3, 8_000, 18_000, 6_500, 18_900, 5_000, 17_100, 2_000, 18_000],
        &[3, 2_000, 18_000, 895, 18_000, 0, 17_105, 0, 16_000],
        &[1, 0, 16_000, 0, 11_000],
        &[2, 0, 11_000, 900, 9_000, 0, 7_000],
        &[1, 0, 7_000, 0, 3_000],
        &[1, 0, 3_000, 0, 2_000],
        &[3, 0, 2_000, 0, 895, 895, 0, 2_000, 0],
    ];
    curves.concat()
}
