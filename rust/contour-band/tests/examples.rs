//! The measured examples of document 01 that banding, judging and drawing reach, and the like with other
//! numbers of pieces, through the public functions.

use contour_band::{
    band, band_and_judge, draw, judge, leaves, record_length, Judgement, Outcome, Refusal, Report, FARTHEST,
};

const CURVE_A: [i32; 9] = [3, 0, 0, 10, 30, 20, 30, 30, 0];

/// The number of pieces of document 01.
const M: u32 = 3;

/// The length of its records.
const RECORD: usize = record_length(M);

/// The numbers written for an outline that is accepted, out of a longer list whose rest stays.
fn written_in(m: u32, outline: &[i32], tolerance: i32) -> (Report, Vec<i32>) {
    let mut records = vec![-5; 4 * record_length(m)];
    let report = band(outline, tolerance, m, &mut records).expect("the outline is accepted");
    let rest = records.split_off(record_length(m) * report.leaves);
    assert!(rest.iter().all(|&n| n == -5));
    (report, records)
}

fn written(outline: &[i32], tolerance: i32) -> (Report, Vec<i32>) {
    written_in(M, outline, tolerance)
}

#[test]
fn curve_a() {
    let (report, records) = written(&CURVE_A, 44);
    assert_eq!(report, Report { curves: 1, leaves: 1, nodes: 1 });
    assert_eq!(records, [0, 1, 0, 0, 0, 38, 160, 160, 319, 363, 320, 320, 319, 363, 480, 480, 0, 38]);
    let (report, records) = written(&CURVE_A, 43);
    assert_eq!(report, Report { curves: 1, leaves: 2, nodes: 3 });
    assert_eq!(leaves(&records, M).map(|leaf| leaf.node).collect::<Vec<_>>(), [2, 3]);
    assert_eq!(
        records[..RECORD],
        [0, 2, 0, 0, 0, 10, 80, 80, 199, 211, 160, 160, 319, 331, 240, 240, 360, 370]
    );
}

/// The y bounds of the first leaf's boxes.
fn y_bounds(outline: &[i32], tolerance: i32) -> Vec<(i32, i32)> {
    let (_, records) = written(outline, tolerance);
    let leaf = leaves(&records, M).next().expect("there is a leaf");
    leaf.boxes.iter().map(|b| (b.y.low, b.y.high)).collect()
}

#[test]
fn bounds_of_y() {
    let negated = [3, 0, 0, 10, -30, 20, -30, 30, 0];
    assert_eq!(y_bounds(&negated, 44), [(-38, 0), (-363, -319), (-363, -319), (-38, 0)]);
    let quadratic = [2, 0, 0, 0, 18, 0, 0];
    assert_eq!(y_bounds(&quadratic, 44), [(0, 17), (127, 144), (127, 144), (0, 17)]);
    let line = [1, 0, 0, 0, 1];
    assert_eq!(y_bounds(&line, 2), [(0, 0), (5, 6), (10, 11), (16, 16)]);
}

#[test]
fn curve_a_in_pieces() {
    // The least tolerance at which it is one leaf, with 1 to 8 pieces.
    for (m, tolerance) in (1..=8).zip([360, 94, 44, 24, 16, 12, 10, 7]) {
        let (report, records) = written_in(m, &CURVE_A, tolerance);
        assert_eq!(report, Report { curves: 1, leaves: 1, nodes: 1 });
        let leaf = leaves(&records, m).next().expect("there is a leaf");
        assert_eq!((leaf.node, leaf.boxes.len() as u32), (1, m + 1));
        assert_eq!(written_in(m, &CURVE_A, tolerance - 1).0.leaves, 2);
        // The last point of the curve is on the last cover.
        assert_eq!(judge(&records, m, 480, 0), Ok(Judgement::On { leaf: 0, cover: m as usize - 1 }));
    }
    assert_eq!(written_in(1, &CURVE_A, 360).1, [0, 1, 0, 0, 0, 360, 480, 480, 0, 360]);
    assert_eq!(written_in(2, &CURVE_A, 94).1, [0, 1, 0, 0, 0, 94, 240, 240, 360, 454, 480, 480, 0, 94]);
}

/// Curves of degrees 4 and 5 with second differences −20 in y, each with the least tolerance at which it is one
/// leaf, by m from 3.
const HIGHER: [(&[i32], [i32; 6]); 2] = [
    (&[4, 0, 0, 210, 30, 420, 40, 630, 30, 840, 0], [56, 32, 21, 15, 11, 9]),
    (&[5, 0, 0, 168, 40, 336, 60, 504, 60, 672, 40, 840, 0], [95, 53, 34, 24, 18, 14]),
];

#[test]
fn degrees_4_and_5_in_pieces() {
    for (outline, least) in HIGHER {
        for (m, tolerance) in (3..=8).zip(least) {
            let (report, records) = written_in(m, outline, tolerance);
            assert_eq!(report, Report { curves: 1, leaves: 1, nodes: 1 });
            assert_eq!(written_in(m, outline, tolerance - 1).0.leaves, 2);
            assert_eq!(judge(&records, m, 16 * 840, 0), Ok(Judgement::On { leaf: 0, cover: m as usize - 1 }));
        }
        for m in 1..=2 {
            assert_eq!(band(outline, 1_000, m, &mut []), Err(Refusal::TooFewPieces { index: 0 }));
        }
    }
    let quartic = [0, 1, 0, 0, 0, 56, 4480, 4480, 426, 482, 8960, 8960, 426, 482, 13440, 13440, 0, 56];
    assert_eq!(written(HIGHER[0].0, 56).1, quartic);
    let quintic = [0, 1, 0, 0, 0, 95, 4480, 4480, 711, 806, 8960, 8960, 711, 806, 13440, 13440, 0, 95];
    assert_eq!(written(HIGHER[1].0, 95).1, quintic);
    // Halved four times and no more.
    let steep = [4, 0, 0, 0, 1_048_576, 0, 1_048_576, 0, 1_048_576, 0, 0];
    assert_eq!(band(&steep, 2, M, &mut []), Err(Refusal::TooWide { curve: 0, node: 16 }));
}

#[test]
fn pieces_out_of_range() {
    let mut lent = [7; 100];
    for m in [0, 9, u32::MAX] {
        // Before the tolerance, and before the length of a leaf list.
        assert_eq!(band(&CURVE_A, 1, m, &mut lent), Err(Refusal::Pieces));
        assert_eq!(band(&[], 44, m, &mut []), Err(Refusal::Pieces));
        assert_eq!(judge(&[], m, 0, i32::MAX), Err(Refusal::Pieces));
        assert_eq!(band_and_judge(&CURVE_A, 44, m, &mut lent, 0, i32::MAX), Err(Refusal::Pieces));
    }
    assert_eq!(lent, [7; 100]);
}

#[test]
fn limits_and_refusals() {
    let mut records = [7; RECORD];
    let mut refused = |outline: &[i32], tolerance| {
        let refusal = band(outline, tolerance, M, &mut records).expect_err("the outline is refused");
        assert_eq!(records, [7; RECORD]);
        refusal
    };
    assert_eq!(refused(&CURVE_A, 1), Refusal::Tolerance);
    assert_eq!(refused(&[1, 0, 0, 0, 1_048_577], 2), Refusal::Coordinate { index: 4 });
    assert_eq!(refused(&[], 2), Refusal::EmptyOutline);
    assert_eq!(refused(&[6; 15], 44), Refusal::Degree { index: 0 });
    let steep = [3, 0, 0, 0, 1_048_576, 0, 1_048_576, 0, 0];
    assert_eq!(refused(&steep, 2), Refusal::TooWide { curve: 0, node: 256 });
    assert_eq!(refused(&CURVE_A, 43), Refusal::TooFewRecords { leaves: 2 });
    assert_eq!(refused(&CURVE_A.repeat(2), 44), Refusal::Gap { index: 9 });
    written(&[1, 0, 0, 0, 1_048_576], 2);
}

#[test]
fn points_of_curve_a() {
    let (report, records) = written(&CURVE_A, 44);
    let on = Judgement::On { leaf: 0, cover: 1 };
    assert_eq!(judge(&records, M, 240, 363), Ok(on));
    assert!(on.is_on());
    assert_eq!(judge(&records, M, 240, 364), Ok(Judgement::Off));
    assert!(!Judgement::Off.is_on());
    let together = |x, y| {
        let mut lent = [0; 100];
        let outcome = band_and_judge(&CURVE_A, 44, M, &mut lent, x, y);
        assert_eq!(lent[..RECORD], if outcome.is_ok() { records[..].to_vec() } else { vec![0; RECORD] });
        assert_eq!(lent[RECORD..], [0; 100 - RECORD]);
        outcome
    };
    assert_eq!(together(240, 363), Ok(Outcome { report, judgement: on }));
    assert_eq!(together(240, 364), Ok(Outcome { report, judgement: Judgement::Off }));
    assert_eq!(together(FARTHEST, -FARTHEST), Ok(Outcome { report, judgement: Judgement::Off }));
    assert_eq!(together(FARTHEST + 1, 0), Err(Refusal::PointX));
    assert_eq!(together(0, i32::MIN), Err(Refusal::PointY));
}

#[test]
fn refusals_of_judging() {
    let (_, mut records) = written(&CURVE_A, 43);
    assert_eq!(judge(&[], M, 0, 0), Err(Refusal::LeafListLength { length: 0 }));
    assert_eq!(judge(&records[1..], M, 0, 0), Err(Refusal::LeafListLength { length: 35 }));
    records[RECORD] = 4_096;
    assert_eq!(judge(&records, M, FARTHEST + 1, 0), Err(Refusal::LeafListNumber { index: 18 }));
    records[RECORD] = 4_095;
    assert_eq!(judge(&records, M, FARTHEST + 1, 0), Err(Refusal::PointX));
    assert_eq!(judge(&records, M, 0, -FARTHEST - 1), Err(Refusal::PointY));
    // Refusals of banding come before those of the point, and leave the list as it was.
    let mut lent = [7; RECORD];
    let refused = band_and_judge(&CURVE_A, 43, M, &mut lent, FARTHEST + 1, 0);
    assert_eq!(refused, Err(Refusal::TooFewRecords { leaves: 2 }));
    assert_eq!(band_and_judge(&[], 44, M, &mut lent, FARTHEST + 1, 0), Err(Refusal::EmptyOutline));
    assert_eq!(lent, [7; RECORD]);
}

/// The numbers drawn for two boxes, x low, x high, y low, y high each.
fn drawn(first: [i32; 4], second: [i32; 4]) -> Vec<i32> {
    let mut vertices = [-5; 20];
    let count = draw(first.into(), second.into(), &mut vertices).expect("the boxes are accepted");
    assert!(vertices[2 * count..].iter().all(|&n| n == -5));
    vertices[..2 * count].to_vec()
}

#[test]
fn covers() {
    assert_eq!(drawn([0, 1, 0, 1], [3, 4, 3, 4]), [0, 0, 1, 0, 4, 3, 4, 4, 3, 4, 0, 1]);
    assert_eq!(drawn([-10, 10, -1, 1], [-1, 1, -10, 10]).len(), 16);
    assert_eq!(drawn([7, 7, -3, -3], [7, 7, -3, -3]), [7, -3]);
}
