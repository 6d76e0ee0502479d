//! Lists that banding wrote: points that equal a curve are on, and points that are on lie within the
//! tolerance of one.

use differential::covers::witness_of;
use differential::curves::{curves, gcd};
use differential::judging::{Band, Comparison};
use differential::leaf_lists::LeafList;
use differential::outlines::{in_range, outline, starts, tolerance, EDGE};
use differential::pieces::{degrees, pieces};
use differential::random::Random;
use plain::record_length;

/// The band of an outline with m pieces, at the first of some tolerance, twice that and so on at which it is
/// accepted.
fn band<'a>(random: &mut Random, outline: &'a [i32], m: u32) -> Band<'a> {
    let mut tolerance = tolerance(random);
    loop {
        match Band::new(outline, tolerance, m) {
            Ok(band) => return band,
            Err(number) => assert_eq!(number, 7, "outline {outline:?}, tolerance {tolerance}, m {m}"),
        }
        tolerance = (2 * tolerance).min(EDGE);
    }
}

/// A whole point near a curve of the outline, or up to a little more than the tolerance off it.
fn near_a_curve(random: &mut Random, outline: &[i32], tolerance: i32) -> (i32, i32) {
    let curve = random.pick(&curves(outline));
    let q = i128::from(random.magnitude());
    let p = i128::from(random.between(0, q as i32));
    let scale = q.pow(curve.degree());
    let [x, y] = curve.sixteenths(p, q).map(|z| z.div_euclid(scale) as i32);
    let half = tolerance / 2;
    let mut off = || random.pick(&[0, 0, 1, -1, half, -half, tolerance, -tolerance, tolerance + 2]);
    (x + off(), y + off())
}

#[test]
fn random_outlines() {
    let mut comparison = Comparison::new("judging, bands of random outlines, seed 721");
    let mut random = Random::new(721);
    for _ in 0..20_000 {
        let m = pieces(&mut random);
        let outline = outline(&mut random, degrees(m));
        let band = band(&mut random, &outline, m);
        let list = LeafList::new(band.records.clone(), band.m);
        for _ in 0..4 {
            let (x, y) = list.point(&mut random);
            comparison.judge_band(&band, x, y);
            let (x, y) = near_a_curve(&mut random, &outline, band.tolerance);
            comparison.judge_band(&band, x, y);
        }
        // Ends, middles and quarters, wherever these are whole sixteenths.
        let curves = curves(&outline);
        let curve = random.pick(&curves);
        for point in (0..=4).filter_map(|p| curve.whole_point(p, 4)) {
            comparison.judge_of_curve(&band, point);
        }
    }
    let tally = &comparison.tally;
    assert!(tally.on > 20_000 && tally.off > 20_000 && tally.near == tally.on);
    assert!(tally.by_cover.iter().all(|&on| on > 1_000));
    comparison.report();
}

/// q^degree / 16, or what is left of it.
fn step(q: i32, degree: i32) -> i128 {
    let parts = i128::from(q).pow(degree as u32);
    parts / gcd(parts, 16)
}

/// A curve that is whole in sixteenths at every parameter p/q, of a degree that takes m pieces: its coordinates
/// differ by multiples of the step.
fn whole_curve(random: &mut Random, q: i32, m: u32) -> Vec<i32> {
    // Those for which there is room for two steps.
    let degrees: Vec<i32> = degrees(m).filter(|&degree| step(q, degree) <= i128::from(EDGE / 2)).collect();
    let degree = random.pick(&degrees);
    let step = step(q, degree) as i32;
    let most = random.magnitude().min(EDGE / step);
    let base = [0, 1].map(|_| random.between(-(EDGE - step * most), EDGE - step * most));
    let flat = random.one_in(6);
    let mut curve = vec![degree];
    for i in 0..=degree {
        // Evenly along a line, or anywhere.
        let mut steps = || if flat { i * most / degree } else { random.between(-most, most) };
        curve.extend(base.map(|base| base + step * steps()));
    }
    curve
}

/// One to three of them, each from where the one before ends.
fn whole_outline(random: &mut Random, q: i32, m: u32) -> Vec<i32> {
    let mut outline = whole_curve(random, q, m);
    let curves = random.between(1, 3);
    while (starts(&outline).len() as i32) < curves {
        let end = [outline[outline.len() - 2], outline[outline.len() - 1]];
        let mut curve = whole_curve(random, q, m);
        let by = [end[0] - curve[1], end[1] - curve[2]];
        curve[1..].iter_mut().zip(by.into_iter().cycle()).for_each(|(number, by)| *number += by);
        if curve.iter().all(|&n| in_range(n)) {
            outline.extend(curve);
        }
    }
    outline
}

#[test]
fn points_between_curves() {
    let mut comparison = Comparison::new("judging, points between curves, seed 723");
    let mut random = Random::new(723);
    for _ in 0..10_000 {
        let m = pieces(&mut random);
        let outline = outline(&mut random, degrees(m));
        let band = band(&mut random, &outline, m);
        for (number, curve) in curves(&outline).iter().enumerate().skip(1) {
            let (x, y) = curve.whole_point(0, 1).expect("control points are whole");
            comparison.judge_of_curve(&band, (x, y));
            // The last leaf of the curve before and the first of this one, which stand side by side.
            let records: Vec<&[i32]> = band.records.chunks_exact(record_length(band.m)).collect();
            let first = records.iter().position(|record| record[0] == number as i32);
            let first = first.expect("a curve has leaves");
            for (record, numbered) in [(first - 1, number - 1), (first, number)] {
                let record = records[record];
                let held = (0..band.m as usize).any(|cover| witness_of(record, cover, x, y).is_some());
                assert!(record[0] == numbered as i32 && held, "({x} {y}) of {outline:?}");
            }
        }
    }
    assert!(comparison.tally.of_curves > 20_000);
    comparison.report();
}

#[test]
fn points_of_curves() {
    let mut comparison = Comparison::new("judging, points of curves at rational parameters, seed 722");
    let mut random = Random::new(722);
    let parts = [1, 2, 3, 4, 5, 6, 7, 8, 9, 10, 11, 12, 15, 16, 17, 20, 24, 32, 48, 50, 60, 64, 96, 100, 128];
    for _ in 0..2_500 {
        let (q, m) = (random.pick(&parts), pieces(&mut random));
        let outline = whole_outline(&mut random, q, m);
        let band = band(&mut random, &outline, m);
        for curve in curves(&outline) {
            for p in 0..=q {
                let point = curve.whole_point(p.into(), q.into()).expect("the curve is whole there");
                comparison.judge_of_curve(&band, point);
            }
        }
    }
    assert!(comparison.tally.of_curves > 100_000);
    comparison.report();
}
