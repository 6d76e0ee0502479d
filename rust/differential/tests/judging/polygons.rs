//! A cover holds a point exactly where its drawn polygon does, and a point is judged on exactly where some drawn
//! polygon of some record holds it: the first that does is the record and the cover named.

use differential::drawing;
use differential::judging::Answer::{self, Off, On};
use differential::judging::Comparison;
use differential::leaf_lists::{leaf_list, LeafList};
use differential::outlines::{outline, tolerance, EDGE};
use differential::pieces::{degrees, pieces};
use differential::polygons::{first_holder, polygons, Polygon};
use differential::random::Random;
use plain::record_length;

/// What judging is to answer by the drawn polygons.
fn by_polygons(polygons: &[Polygon], m: u32, x: i32, y: i32) -> Answer {
    first_holder(polygons, m, x, y).map_or(Off, |(leaf, cover)| On { leaf, cover })
}

/// Judges each point alone and all of them in one call, and compares with the drawn polygons.
fn judge_all(
    comparison: &mut Comparison,
    drawing: &mut drawing::Comparison,
    list: &LeafList,
    points: &[(i32, i32)],
) {
    let polygons = polygons(drawing, &list.numbers, list.m);
    let expected: Vec<Answer> = points.iter().map(|&(x, y)| by_polygons(&polygons, list.m, x, y)).collect();
    for (&(x, y), &answer) in points.iter().zip(&expected) {
        let judged = comparison.judge(&list.numbers, list.m, x, y);
        assert_eq!(judged, answer, "({x} {y}), m {}, leaves {:?}", list.m, list.numbers);
    }
    let numbers: Vec<i32> = points.iter().flat_map(|&(x, y)| [x, y]).collect();
    let mut answers = vec![0; 3 * points.len()];
    let judged = contour_band::judge_points(&list.numbers, list.m, &numbers, &mut answers);
    let judged: Vec<Answer> = judged.expect("the list passes").map(Answer::from).collect();
    assert_eq!(judged, expected, "points {points:?}, m {}, leaves {:?}", list.m, list.numbers);
}

/// Every two boxes with bounds from 0 to 4, and every point from −1 to 5: a record of one cover.
#[test]
fn every_two_small_boxes() {
    let mut comparison = Comparison::new("judging against drawn polygons, every two boxes from 0 to 4");
    let mut drawing = drawing::Comparison::new("drawing, every two boxes from 0 to 4", 731);
    let bounds: Vec<[i32; 2]> = (0..=4).flat_map(|low| (low..=4).map(move |high| [low, high])).collect();
    let with = |x: &[i32; 2]| bounds.iter().map(|y| [x[0], x[1], y[0], y[1]]).collect::<Vec<_>>();
    let boxes: Vec<[i32; 4]> = bounds.iter().flat_map(with).collect();
    // Points held, held on an edge, and not held, by the count of vertices.
    let mut tally = [[0_u64; 3]; 9];
    for first in &boxes {
        for second in &boxes {
            drawing.pairs += 1;
            let polygon = Polygon::new(&mut drawing, first, second);
            let leaves = [&[0, 1][..], first, second].concat();
            for (x, y) in (-1..=5).flat_map(|x| (-1..=5).map(move |y| (x, y))) {
                let held = polygon.holds(x, y);
                let judged = comparison.judge(&leaves, 1, x, y);
                assert_eq!(judged.is_on(), held, "({x} {y}), boxes {first:?} {second:?}");
                let counts = &mut tally[polygon.vertices.len()];
                counts[0] += u64::from(held);
                counts[1] += u64::from(held && polygon.in_line(x, y));
                counts[2] += u64::from(!held);
            }
        }
    }
    for count in [1, 2, 3, 4, 5, 6, 8] {
        assert!(tally[count].iter().all(|&points| points > 0), "{count} vertices: {:?}", tally[count]);
    }
    comparison.report();
    drawing.report();
}

/// Lists that banding would not write, with points mostly at the edges of their covers, to the ends of the range.
#[test]
fn random_leaf_lists() {
    let mut comparison = Comparison::new("judging against drawn polygons, random leaf lists, seed 732");
    let mut drawing = drawing::Comparison::new("drawing, covers of random leaf lists, seed 732", 732);
    let mut random = Random::new(732);
    for _ in 0..20_000 {
        let list = leaf_list(&mut random);
        let points: Vec<(i32, i32)> = (0..5).map(|_| list.point(&mut random)).collect();
        judge_all(&mut comparison, &mut drawing, &list, &points);
    }
    assert!(comparison.tally.on > 20_000 && comparison.tally.off > 20_000);
    comparison.report();
}

/// Bands of random outlines, cut after 64 leaves.
#[test]
fn bands() {
    let mut comparison = Comparison::new("judging against drawn polygons, bands, seed 733");
    let mut drawing = drawing::Comparison::new("drawing, covers of bands, seed 733", 733);
    let mut random = Random::new(733);
    let mut records = vec![0; record_length(8) * 64 * 256];
    for _ in 0..2_000 {
        let m = pieces(&mut random);
        let outline = outline(&mut random, degrees(m));
        let mut tolerance = tolerance(&mut random);
        let report = loop {
            match contour_band::band(&outline, tolerance, m, &mut records) {
                Ok(report) => break report,
                Err(refusal) => assert_eq!(refusal.number(), 7),
            }
            tolerance = (2 * tolerance).min(EDGE);
        };
        let leaves = (report.leaves as usize).min(64);
        let list = LeafList::new(records[..record_length(m) * leaves].to_vec(), m);
        let points: Vec<(i32, i32)> = (0..10).map(|_| list.point(&mut random)).collect();
        judge_all(&mut comparison, &mut drawing, &list, &points);
    }
    assert!(comparison.tally.on > 2_000 && comparison.tally.off > 2_000);
    comparison.report();
}
