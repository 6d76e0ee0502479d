//! Bands of B-splines: points that equal the spline are on, and points that are on lie within the tolerance of it.

use differential::covers::witness_of;
use differential::curves::parameter;
use differential::judging::{Answer, Comparison};
use differential::leaf_lists::LeafList;
use differential::outlines::tolerance;
use differential::pieces::pieces;
use differential::random::Random;
use differential::splines::{curves, points, EDGE};
use plain::record_length;

/// A list of points with the records that the proved engine writes for its spline, at the first of some tolerance,
/// twice that and so on at which it is accepted.
struct Band {
    points: Vec<i32>,
    tolerance: i32,
    leaves: LeafList,
}

impl Band {
    fn new(random: &mut Random, points: Vec<i32>) -> Band {
        let m = pieces(random);
        let mut tolerance = tolerance(random);
        let mut records = vec![0; record_length(m) * 64 * 256];
        loop {
            match contour_band::spline_band(&points, tolerance, m, &mut records) {
                Ok(report) => {
                    records.truncate(record_length(m) * report.leaves);
                    return Band { points, tolerance, leaves: LeafList::new(records, m) };
                }
                Err(refusal) => assert_eq!(refusal.number(), 7, "{points:?}, tolerance {tolerance}, m {m}"),
            }
            tolerance = (2 * tolerance).min(1_048_576);
        }
    }

    /// Judges a point with both engines. One that is on is within the tolerance of its record's curve, at the
    /// parameter that the cover's fraction gives.
    fn judge(&self, comparison: &mut Comparison, (x, y): (i32, i32)) -> Answer {
        let (m, records) = (self.leaves.m, &self.leaves.numbers);
        let answer = comparison.judge(records, m, x, y);
        if let Answer::On { leaf, cover } = answer {
            let record = &records[record_length(m) * leaf..][..record_length(m)];
            let s = witness_of(record, cover, x, y).expect("the cover holds the point");
            let (p, q) = parameter(record[1], m, cover, s);
            let curve = curves(&self.points)[record[0] as usize];
            let near = curve.within(p, q, self.tolerance, x, y);
            assert!(
                near,
                "({x} {y}) is on by record {leaf} and far from its curve at {p}/{q}: {:?}",
                self.points
            );
            comparison.tally.near += 1;
        }
        answer
    }
}

#[test]
fn random_splines() {
    let mut comparison = Comparison::new("judging, bands of random B-splines, seed 751");
    let mut random = Random::new(751);
    for _ in 0..10_000 {
        let points = points(&mut random);
        let band = Band::new(&mut random, points);
        let curves = curves(&band.points);
        for _ in 0..4 {
            let point = band.leaves.point(&mut random);
            band.judge(&mut comparison, point);
            let q = i128::from(random.magnitude());
            let p = i128::from(random.between(0, q as i32));
            let (x, y) = random.pick(&curves).near_point(p, q);
            let (half, whole) = (band.tolerance / 2, band.tolerance);
            let mut off = || random.pick(&[0, 0, 1, -1, half, -half, whole, -whole, whole + 2]);
            let point = (x + off(), y + off());
            band.judge(&mut comparison, point);
        }
    }
    let tally = &comparison.tally;
    assert!(tally.on > 10_000 && tally.off > 10_000 && tally.near == tally.on);
    comparison.report();
}

/// Splines that are whole in sixteenths at every parameter p/q: their coordinates are multiples of 3 q³/8, or of what
/// is left of it.
#[test]
fn points_of_splines() {
    let mut comparison = Comparison::new("judging, points of B-splines at rational parameters, seed 752");
    let mut random = Random::new(752);
    for _ in 0..2_500 {
        let q = random.pick(&[1, 2, 3, 4, 5, 6, 7, 8, 9, 10, 12, 15, 16, 20, 24, 30, 32]);
        let cube: i32 = 3 * q * q * q;
        let step = cube >> cube.trailing_zeros().min(3);
        let most = random.magnitude().min(EDGE / step);
        let flat = random.one_in(6);
        let count = random.between(4, 7);
        let points = (0..2 * count)
            .map(|i| step * if flat { i / 2 * most / count } else { random.between(-most, most) });
        let points = points.collect();
        let band = Band::new(&mut random, points);
        for (curve, p) in curves(&band.points).iter().flat_map(|curve| (0..=q).map(move |p| (curve, p))) {
            let point = curve.whole_point(p.into(), q.into()).expect("the spline is whole there");
            let answer = band.judge(&mut comparison, point);
            assert!(
                answer.is_on(),
                "{point:?} equals the spline at {p}/{q} and is {answer:?}: {:?}",
                band.points
            );
            comparison.tally.of_curves += 1;
        }
    }
    assert!(comparison.tally.of_curves > 50_000);
    comparison.report();
}
