//! The measured examples of document 01 that banding reaches, the like with other numbers of pieces and of
//! degrees 4 and 5, and laws of banding's reports.

use crate::documented::{by_pieces, pairs};
use crate::{band, exact, record_length, spline_band, Refusal, Report};

/// The length of a record of three pieces.
const RECORD: usize = 18;

/// Stands where nothing was written.
const UNTOUCHED: i32 = -77_777_777;

/// The report and the records of an outline that is accepted with m pieces. Checks that nothing else was
/// written.
fn accepted_in(m: u32, outline: &[i32], tolerance: i32) -> (Report, Vec<i32>) {
    let length = record_length(m);
    // Room for every leaf that an outline can have.
    let mut records = vec![UNTOUCHED; length * 64 * 256];
    let report = band(outline, tolerance, m, &mut records).expect("the outline is accepted");
    let rest = records.split_off(length * report.leaves as usize);
    assert!(rest.iter().all(|&n| n == UNTOUCHED));
    (report, records)
}

fn accepted(outline: &[i32], tolerance: i32) -> (Report, Vec<i32>) {
    accepted_in(3, outline, tolerance)
}

/// The refusal of an outline with m pieces. Checks that nothing was written.
fn refused_in(m: u32, outline: &[i32], tolerance: i32, length: usize) -> Refusal {
    let mut records = vec![UNTOUCHED; length];
    let refusal = band(outline, tolerance, m, &mut records).expect_err("the outline is refused");
    assert!(records.iter().all(|&n| n == UNTOUCHED));
    refusal
}

fn refused(outline: &[i32], tolerance: i32, length: usize) -> Refusal {
    refused_in(3, outline, tolerance, length)
}

fn number_and_spot(refusal: Refusal) -> (u32, u64) {
    (refusal.number(), refusal.spot())
}

/// An outline of one curve with x all 0.
fn upright(y: &[i32]) -> Vec<i32> {
    let mut outline = vec![y.len() as i32 - 1];
    outline.extend(y.iter().flat_map(|&y| [0, y]));
    outline
}

/// The y bounds of every box of every record of m pieces.
fn y_bounds_in(m: u32, records: &[i32]) -> Vec<(i32, i32)> {
    let records = records.chunks_exact(record_length(m));
    records.flat_map(|record| record[2..].chunks_exact(4)).map(|b| (b[2], b[3])).collect()
}

fn y_bounds(records: &[i32]) -> Vec<(i32, i32)> {
    y_bounds_in(3, records)
}

const CURVE_A: [i32; 9] = [3, 0, 0, 10, 30, 20, 30, 30, 0];

#[test]
fn curve_a_at_44_is_one_leaf() {
    let (report, records) = accepted(&CURVE_A, 44);
    assert_eq!(report, Report { curves: 1, leaves: 1, nodes: 1 });
    #[rustfmt::skip]
    let leaf = [0, 1, 0, 0, 0, 38, 160, 160, 319, 363, 320, 320, 319, 363, 480, 480, 0, 38];
    assert_eq!(records, leaf);
}

#[test]
fn curve_a_at_43_is_two_leaves() {
    let (report, records) = accepted(&CURVE_A, 43);
    assert_eq!(report, Report { curves: 1, leaves: 2, nodes: 3 });
    #[rustfmt::skip]
    let node_2 = [0, 2, 0, 0, 0, 10, 80, 80, 199, 211, 160, 160, 319, 331, 240, 240, 360, 370];
    assert_eq!(records[..RECORD], node_2);
    assert_eq!(records[RECORD..RECORD + 2], [0, 3]);
    // A is its own mirror image, so node 3 has node 2's y bounds backwards.
    let bounds = y_bounds(&records);
    assert_eq!(bounds[4..], [(360, 370), (319, 331), (199, 211), (0, 10)]);
}

#[test]
fn curve_a_with_y_negated() {
    let (_, records) = accepted(&[3, 0, 0, 10, -30, 20, -30, 30, 0], 44);
    assert_eq!(y_bounds(&records), [(-38, 0), (-363, -319), (-363, -319), (-38, 0)]);
}

#[test]
fn a_quadratic_0_18_0() {
    let (report, records) = accepted(&upright(&[0, 18, 0]), 44);
    assert_eq!(report, Report { curves: 1, leaves: 1, nodes: 1 });
    assert_eq!(y_bounds(&records), [(0, 17), (127, 144), (127, 144), (0, 17)]);
}

#[test]
fn a_line_0_1() {
    let (report, records) = accepted(&upright(&[0, 1]), 2);
    assert_eq!(report, Report { curves: 1, leaves: 1, nodes: 1 });
    assert_eq!(y_bounds(&records), [(0, 0), (5, 6), (10, 11), (16, 16)]);
}

/// The least tolerance at which curve A is one leaf, with m pieces from 1 to 8.
const CURVE_A_WHOLE: [(u32, i32); 8] =
    [(1, 360), (2, 94), (3, 44), (4, 24), (5, 16), (6, 12), (7, 10), (8, 7)];

#[test]
fn curve_a_in_pieces() {
    for (m, tolerance) in CURVE_A_WHOLE {
        let whole = accepted_in(m, &CURVE_A, tolerance).0;
        assert_eq!(whole, Report { curves: 1, leaves: 1, nodes: 1 });
        let halved = accepted_in(m, &CURVE_A, tolerance - 1).0;
        assert_eq!(halved, Report { curves: 1, leaves: 2, nodes: 3 });
    }
    // A's second differences are 0 in x, and −30 twice in y: at a break point, y is 0.048 times the sum of
    // both rows, turned positive.
    #[rustfmt::skip]
    let leaves: [(u32, &[i32]); 4] = [
        // 0.048 × 7500 = 360.
        (1, &[0, 1, 0, 0, 0, 360, 480, 480, 0, 360]),
        // 0.048 × 1943 = 93.264; 0.048 × 7500 = 360 and 0.048 × 9444 = 453.312.
        (2, &[0, 1, 0, 0, 0, 94, 240, 240, 360, 454, 480, 480, 0, 94]),
        // 0.048 × 477 = 22.896; 0.048 × 5624 = 269.952 and 0.048 × 6101 = 292.848; 360 and
        // 0.048 × 7970 = 382.56.
        (4, &[
            0, 1, 0, 0, 0, 23, 120, 120, 269, 293, 240, 240, 360, 383, 360, 360, 269, 293, 480, 480, 0, 23,
        ]),
        // 0.048 × 118 = 5.664; 0.048 × 3280 = 157.44 and 0.048 × 3400 = 163.2; 0.048 × 5624 = 269.952 and
        // 0.048 × 5744 = 275.712; 0.048 × 7030 = 337.44 and 0.048 × 7149 = 343.152; 360 and
        // 0.048 × 7618 = 365.664.
        (8, &[
            0, 1, 0, 0, 0, 6, 60, 60, 157, 164, 120, 120, 269, 276, 180, 180, 337, 344, 240, 240, 360, 366,
            300, 300, 337, 344, 360, 360, 269, 276, 420, 420, 157, 164, 480, 480, 0, 6,
        ]),
    ];
    for (m, leaf) in leaves {
        assert_eq!(accepted_in(m, &CURVE_A, 1_000).1, leaf);
    }
}

/// Curves of degrees 4 and 5 whose second differences are 0 in x, and −20 everywhere in y. The parameter and x
/// go together, and x at every break point is a whole number.
const CURVE_B: [i32; 11] = [4, 0, 0, 210, 30, 420, 40, 630, 30, 840, 0];
const CURVE_C: [i32; 13] = [5, 0, 0, 168, 40, 336, 60, 504, 60, 672, 40, 840, 0];

#[test]
fn curve_b_in_pieces() {
    // 0.032 times the sum of the three rows at a break point, turned positive.
    #[rustfmt::skip]
    let leaves: [Whole; 6] = [
        // 0.032 × 1729 = 55.328; 0.032 × 13332 = 426.624 and 0.032 × 15061 = 481.952.
        (3, 56, &[(0, 56), (426, 482)]),
        // 0.032 × 964 = 30.848; 0.032 × 11248 = 359.936 and 0.032 × 12212 = 390.784; 0.032 × 15000 = 480 and
        // 0.032 × 15964 = 510.848.
        (4, 32, &[(0, 31), (359, 391), (480, 511)]),
        // 0.032 × 611 = 19.552; 0.032 × 9600 = 307.2 and 0.032 × 10211 = 326.752; 0.032 × 14400 = 460.8 and
        // 0.032 × 15011 = 480.352.
        (5, 21, &[(0, 20), (307, 327), (460, 481)]),
        (6, 15, &[(0, 14), (266, 281), (426, 441), (480, 494)]),
        (7, 11, &[(0, 10), (235, 246), (391, 402), (470, 481)]),
        (8, 9, &[(0, 8), (209, 218), (359, 368), (449, 458), (480, 488)]),
    ];
    whole_and_halved(&CURVE_B, &leaves);
}

#[test]
fn curve_c_in_pieces() {
    // 0.032 times the sum of the four rows at a break point, turned positive.
    #[rustfmt::skip]
    let leaves: [Whole; 6] = [
        // 0.032 × 2955 = 94.56; 0.032 × 22220 = 711.04 and 0.032 × 25175 = 805.6.
        (3, 95, &[(0, 95), (711, 806)]),
        // 0.032 × 1622 = 51.904; 0.032 × 18747 = 599.904 and 0.032 × 20369 = 651.808; 0.032 × 24998 = 799.936
        // and 0.032 × 26620 = 851.84.
        (4, 53, &[(0, 52), (599, 652), (799, 852)]),
        // 0.032 × 1031 = 32.992; 0.032 × 15998 = 511.936 and 0.032 × 17029 = 544.928; 0.032 × 23998 = 767.936
        // and 0.032 × 25029 = 800.928.
        (5, 34, &[(0, 33), (511, 545), (767, 801)]),
        (6, 24, &[(0, 23), (444, 468), (711, 734), (799, 823)]),
        (7, 18, &[(0, 17), (391, 409), (653, 670), (783, 801)]),
        (8, 14, &[(0, 13), (349, 363), (599, 613), (749, 763), (799, 813)]),
    ];
    whole_and_halved(&CURVE_C, &leaves);
}

/// With an m, the least tolerance at which a curve is one leaf, and the y bounds of the first half of its boxes.
type Whole<'a> = (u32, i32, &'a [(i32, i32)]);

/// Checks a curve that goes to x 840 and is its own mirror image.
fn whole_and_halved(outline: &[i32], leaves: &[Whole]) {
    for &(m, tolerance, first) in leaves {
        let (report, records) = accepted_in(m, outline, tolerance);
        assert_eq!(report, Report { curves: 1, leaves: 1, nodes: 1 });
        let mut leaf = vec![0, 1];
        for i in 0..=m as usize {
            let x = 16 * 840 * i as i32 / m as i32;
            let (low, high) = first[i.min(m as usize - i)];
            leaf.extend([x, x, low, high]);
        }
        assert_eq!(records, leaf);
        let halved = accepted_in(m, outline, tolerance - 1).0;
        assert_eq!(halved, Report { curves: 1, leaves: 2, nodes: 3 });
    }
}

#[test]
fn every_row_is_read_off_a_curve() {
    for pair in pairs() {
        let (m, d, place) = (pair.m as u32, pair.degree as i32, pair.difference as i32 + 1);
        // One second difference is 625 × d, the others and both ends are 0: 16 × 625 is ten thousand, so a
        // bound is d times an entry. Turned round, the low row gives the high.
        let height = |j: i32| -625 * j.min(place) * (d - j.max(place));
        for sign in [1, -1] {
            let y: Vec<i32> = (0..=d).map(|j| sign * height(j)).collect();
            let (report, records) = accepted_in(m, &upright(&y), 1_048_576);
            assert_eq!(report.leaves, 1);
            let rows = pair.low.iter().zip(&pair.high).map(|(&low, &high)| (low as i32, high as i32));
            let turned = |(low, high)| if sign == 1 { (d * low, d * high) } else { (-d * high, -d * low) };
            assert_eq!(y_bounds_in(m, &records), rows.map(turned).collect::<Vec<_>>(), "{pair:?}");
        }
    }
}

#[test]
fn a_quadratic_0_18_0_in_pieces() {
    // 0.0576 times the row, turned positive.
    for (m, bounds) in [
        (1, &[(0, 144), (0, 144)][..]),
        (2, &[(0, 36), (144, 180), (0, 36)]),
        (4, &[(0, 9), (108, 118), (144, 153), (108, 118), (0, 9)]),
        (5, &[(0, 6), (92, 98), (138, 144), (138, 144), (92, 98), (0, 6)]),
    ] {
        let (report, records) = accepted_in(m, &upright(&[0, 18, 0]), 144);
        assert_eq!(report, Report { curves: 1, leaves: 1, nodes: 1 });
        assert_eq!(y_bounds_in(m, &records), bounds);
    }
}

#[test]
fn a_line_0_1_in_pieces() {
    for m in 1..=8 {
        let (report, records) = accepted_in(m, &upright(&[0, 1]), 2);
        assert_eq!(report, Report { curves: 1, leaves: 1, nodes: 1 });
        let parts = m as i32;
        let expected: Vec<_> = (0..=parts).map(|i| (16 * i / parts, (16 * i + parts - 1) / parts)).collect();
        assert_eq!(y_bounds_in(m, &records), expected);
    }
}

#[test]
fn records_are_those_in_exact_fractions() {
    const EDGE: i32 = 1_048_576;
    #[rustfmt::skip]
    let outlines: [&[i32]; 9] = [
        &CURVE_A,
        &CURVE_B,
        &CURVE_C,
        // From one end of the range to the other.
        &[2, EDGE, 0, -EDGE, EDGE, EDGE - 1, 1],
        &[3, -EDGE, EDGE, EDGE, -EDGE, EDGE, EDGE, -EDGE, -EDGE],
        &[4, -EDGE, EDGE, EDGE, -EDGE, -EDGE, 1 - EDGE, EDGE, EDGE, -EDGE, -EDGE],
        &[5, EDGE, -EDGE, -EDGE, 7, EDGE, EDGE, -EDGE, -EDGE, EDGE - 1, EDGE, -EDGE, 0],
        // Second differences of either sign.
        &[4, 0, 0, 100, 40, 200, -40, 310, 40, 400, -30],
        &[5, 0, 0, 900, 3_000, 3_600, -600, 8_100, 900, 14_400, -1_200, 22_500, 15_000],
    ];
    for m in 1..=8 {
        let lively = lively(m);
        let taken = outlines.into_iter().filter(|outline| m >= 3 || outline[0] <= 3).chain([&lively[..]]);
        for (outline, tolerance) in taken.flat_map(|outline| {
            [2, 3, 7, 16, 45, 1_000, 50_000, 1_048_576].map(|tolerance| (outline, tolerance))
        }) {
            let length = record_length(m);
            match exact::records(outline, tolerance, m as usize) {
                Ok(expected) => {
                    let (report, records) = accepted_in(m, outline, tolerance);
                    assert_eq!(report.leaves as usize, expected.len() / length);
                    assert_eq!(records, expected);
                }
                Err(spot) => {
                    let refusal = refused_in(m, outline, tolerance, length * 256);
                    assert_eq!(number_and_spot(refusal), (7, spot));
                }
            }
        }
    }
}

/// The answer for a B-spline, with room for every leaf, and the records. Checks that nothing else was written.
fn spline(m: u32, points: &[i32], tolerance: i32) -> (Result<Report, Refusal>, Vec<i32>) {
    let length = record_length(m);
    let mut records = vec![UNTOUCHED; length * 64 * 256];
    let answer = spline_band(points, tolerance, m, &mut records);
    let rest = records.split_off(length * answer.map_or(0, |report| report.leaves as usize));
    assert!(rest.iter().all(|&n| n == UNTOUCHED));
    (answer, records)
}

/// The control points of curve A. Those of its B-spline are (10 25), (40/3 30), (50/3 30) and (20 25).
const SPLINE_A: [i32; 8] = [0, 0, 10, 30, 20, 30, 30, 0];

#[test]
fn a_spline_is_banded_in_sixths() {
    let (answer, records) = spline(3, &SPLINE_A, 9);
    assert_eq!(answer, Ok(Report { curves: 1, leaves: 1, nodes: 1 }));
    #[rustfmt::skip]
    let leaf = [0, 1, 160, 160, 400, 407, 213, 214, 453, 461, 266, 267, 453, 461, 320, 320, 400, 407];
    assert_eq!(records, leaf);
}

#[test]
fn records_of_splines_are_those_in_exact_fractions() {
    const EDGE: i32 = 131_072;
    let splines: [&[i32]; 6] = [
        &SPLINE_A,
        // Sixths that are no halves and no thirds, of either sign.
        &[0, 0, 1, -1, 3, 7, -4, 2, 5, 5, 11, -13, 0, 1],
        // One point; points on a line; a point that stands twice.
        &[-7, 5].repeat(5),
        &[0, 0, 10, 20, 20, 40, 30, 60, 35, 70],
        &[0, 0, 400, 300, 400, 300, 0, 800, 0, 800, 0, 800, 100, 100],
        &[EDGE, -EDGE, -EDGE, EDGE, EDGE, EDGE, -EDGE, -EDGE, EDGE, -EDGE],
    ];
    for (m, points) in (1..=8).flat_map(|m| splines.map(|points| (m, points))) {
        for tolerance in [2, 3, 7, 16, 45, 1_000, 50_000, 1_048_576] {
            let (answer, records) = spline(m, points, tolerance);
            match exact::spline_records(points, tolerance, m as usize) {
                Ok(expected) => {
                    let report = answer.expect("the list is accepted");
                    assert_eq!(report.curves as usize, points.len() / 2 - 3);
                    assert_eq!(report.leaves as usize, expected.len() / record_length(m));
                    assert_eq!(records, expected);
                }
                Err(spot) => assert_eq!(answer.map_err(number_and_spot), Err((7, spot))),
            }
        }
    }
}

/// The checks in their order: 18, 1, 24, 25, 7, 8.
#[test]
fn refusals_of_splines_in_their_order() {
    let refused = |points: &[i32], tolerance, m, lent: usize| {
        let mut records = vec![UNTOUCHED; lent];
        let refusal = spline_band(points, tolerance, m, &mut records).expect_err("it is refused");
        assert!(records.iter().all(|&n| n == UNTOUCHED));
        number_and_spot(refusal)
    };
    let far = [0, 0, 0, 131_073, 0, 0, 0, 0];
    for m in 1..=8 {
        assert_eq!(refused(&[], 1, 9, 0), (18, 0));
        assert_eq!(refused(&[], 1, m, 0), (1, 0));
        assert_eq!(refused(&[], 2, m, 0), (24, 0));
        assert_eq!(refused(&far[..7], 2, m, 0), (24, 7));
        assert_eq!(refused(&far, 2, m, 0), (25, 3));
        assert_eq!(refused(&[0; 8], 2, m, record_length(m) - 1), (8, 1));
    }
    let wide = [0, 131_072, 0, -131_072, 0, 131_072, 0, -131_072];
    assert_eq!(refused(&wide, 2, 1, 0), (7, 256));
}

#[test]
fn pieces_out_of_range_are_refused_before_the_tolerance() {
    for m in [0, 9, 1 << 31, u32::MAX] {
        assert_eq!(number_and_spot(refused_in(m, &CURVE_A, 44, 100)), (18, 0));
        assert_eq!(number_and_spot(refused_in(m, &[], 1, 0)), (18, 0));
    }
    for m in 1..=8 {
        assert_eq!(number_and_spot(refused_in(m, &[], 1, 0)), (1, 0));
    }
}

#[test]
fn degrees_4_and_5_take_three_pieces_or_more() {
    let six = [6; 15];
    let curves: [(&[i32], i32); 2] = [(&CURVE_B, 4), (&CURVE_C, 5)];
    for (curve, degree) in curves {
        for m in 3..=8 {
            accepted_in(m, curve, 1_000);
            assert_eq!(number_and_spot(refused_in(m, &[degree], 44, 100)), (3, 1));
        }
        for m in 1..=2 {
            assert_eq!(number_and_spot(refused_in(m, curve, 1_000, 100)), (20, 0));
            // Before check 3, and after 2, 1 and 18.
            assert_eq!(number_and_spot(refused_in(m, &[degree], 44, 100)), (20, 0));
            assert_eq!(number_and_spot(refused_in(m, &six, 44, 100)), (2, 0));
            assert_eq!(number_and_spot(refused_in(m, curve, 1, 100)), (1, 0));
            let later = [&CURVE_A[..], &[degree]].concat();
            assert_eq!(number_and_spot(refused_in(m, &later, 44, 100)), (20, 9));
        }
        for m in [0, 9, u32::MAX] {
            assert_eq!(number_and_spot(refused_in(m, curve, 1_000, 100)), (18, 0));
        }
    }
}

#[test]
fn a_list_has_room_by_the_length_of_a_record() {
    for (m, whole) in CURVE_A_WHOLE {
        let (report, records) = accepted_in(m, &CURVE_A, whole - 1);
        assert_eq!(records.len(), 2 * (6 + 4 * m as usize));
        for length in [0, 1, records.len() - 1] {
            assert_eq!(number_and_spot(refused_in(m, &CURVE_A, whole - 1, length)), (8, 2));
        }
        let mut exact = vec![UNTOUCHED; records.len()];
        assert_eq!(band(&CURVE_A, whole - 1, m, &mut exact), Ok(report));
        assert_eq!(exact, records);
    }
}

#[test]
fn the_tolerance_is_the_diagonal_of_a_box() {
    // Boxes 44 wide and 44 high: 2 × 44² = 3872, between 62² and 63².
    let across = [3, 0, 0, 30, 30, 30, 30, 0, 0];
    assert_eq!(accepted(&across, 63).0.leaves, 1);
    assert_eq!(accepted(&across, 62).0.leaves, 2);
    // At T 2 a box 2 wide and 1 high is too long, so a small curve can be refused.
    assert_eq!(number_and_spot(refused(&across, 2, 18 * 256)), (7, 277));
}

#[test]
fn tolerance_2_passes_and_1_is_refused() {
    accepted(&upright(&[0, 1]), 2);
    assert_eq!(number_and_spot(refused(&upright(&[0, 1]), 1, 18)), (1, 0));
    assert_eq!(number_and_spot(refused(&[], 1, 0)), (1, 0));
}

#[test]
fn coordinates_at_and_past_the_limit() {
    for sign in [1, -1] {
        accepted(&upright(&[0, sign * 1_048_576]), 2);
        let past = refused(&upright(&[0, sign * 1_048_577]), 2, 18);
        assert_eq!(number_and_spot(past), (4, 4));
    }
}

#[test]
fn an_empty_outline_and_degree_6() {
    assert_eq!(number_and_spot(refused(&[], 2, 18)), (6, 0));
    let degree_6 = [6, 0, 0, 0, 0, 0, 0, 0, 0, 0, 0, 0, 0, 0, 0];
    assert_eq!(number_and_spot(refused(&degree_6, 44, 18)), (2, 0));
}

#[test]
fn a_curve_too_wide_after_its_last_halving() {
    let steep = upright(&[0, 1_048_576, 1_048_576, 0]);
    assert_eq!(number_and_spot(refused(&steep, 2, 18 * 256)), (7, 256));
    // Before the lent records, and with the number of its curve.
    let mut second = upright(&[5, 0]);
    second.extend(&steep);
    assert_eq!(number_and_spot(refused(&second, 2, 0)), (7, 512 + 256));
}

/// The outline of a curve of a degree with x all 0 and every second difference of y −2 × `half`.
fn arch(degree: i32, half: i32) -> Vec<i32> {
    let height = |j| half * j * (degree - j);
    upright(&(0..=degree).map(height).collect::<Vec<_>>())
}

#[test]
fn curves_of_degrees_4_and_5_are_halved_four_times() {
    let edge = 1_048_576;
    for (m, degree) in (3..=8).flat_map(|m| [(m, 4), (m, 5)]) {
        let mut steep = vec![edge; degree + 1];
        (steep[0], steep[degree]) = (0, 0);
        assert_eq!(number_and_spot(refused_in(m, &upright(&steep), 2, 38 * 16)), (7, 16));
        // Before the lent records, and with the number of its curve.
        let second = [upright(&[5, 0]), upright(&steep)].concat();
        assert_eq!(number_and_spot(refused_in(m, &second, 2, 0)), (7, 512 + 16));
        // One that bends more and more, so that a later node is the first.
        let mut late = vec![0; degree + 1];
        late[degree] = 4_000;
        let spot = refused_in(m, &upright(&late), 3, 0).spot();
        assert!((17..32).contains(&spot));
        assert_eq!(exact::records(&upright(&late), 3, m as usize), Err(spot));
    }
}

#[test]
fn leaves_at_both_greatest_depths() {
    // Before it is rounded, a box of a curve whose second differences are all D is 16 × G × D / 10000 high
    // at most, and a quarter of that at each next depth. Here that is 3.5 at depth 7, and at depth 3.
    for m in 3..=8 {
        let g = |degree| by_pieces(degree, "G", m as usize) as i32;
        let outline = [arch(3, 17_920_000 / g(3)), arch(4, 70_000 / g(4)), arch(5, 70_000 / g(5))].concat();
        let (report, records) = accepted_in(m, &outline, 3);
        assert_eq!(report, Report { curves: 3, leaves: 256 + 16 + 16, nodes: 511 + 31 + 31 });
        let leaves: Vec<(i32, i32)> =
            records.chunks_exact(record_length(m)).map(|leaf| (leaf[0], leaf[1])).collect();
        let expected = (256..512).map(|node| (0, node)).chain((16..32).map(|node| (1, node)));
        assert_eq!(leaves, expected.chain((16..32).map(|node| (2, node))).collect::<Vec<_>>());
        // Four times as steep, those of degrees 4 and 5 are refused.
        for degree in [4, 5] {
            let outline = arch(degree, 280_000 / g(degree as usize));
            assert_eq!(number_and_spot(refused_in(m, &outline, 3, 0)), (7, 16));
        }
    }
}

#[test]
fn a_list_one_number_short_is_refused_with_all_leaves_counted() {
    assert_eq!(number_and_spot(refused(&CURVE_A, 43, 35)), (8, 2));
    assert_eq!(number_and_spot(refused(&CURVE_A, 43, 0)), (8, 2));
    let mut exact = [UNTOUCHED; 36];
    assert!(band(&CURVE_A, 43, 3, &mut exact).is_ok());
    assert_ne!(exact[35], UNTOUCHED);
}

/// Curves of each degree that takes m pieces, one after the other, whose leaves stand at many depths.
fn lively(m: u32) -> Vec<i32> {
    let mut outline = vec![3, 0, 0, 9_000, 14_000, -700, -12_000, 8_000, 5];
    outline.extend([1, 8_000, 5, 0, 0]);
    outline.extend([2, 0, 0, 30_000, 77, 0, 0]);
    outline.extend(CURVE_A);
    if m >= 3 {
        outline.extend([4, 30, 0, 50, 9, 66, -9, 99, 0, 110, 20]);
        outline.extend([5, 110, 20, 100, 0, 80, 0, 66, 11, 40, 11, 20, 30]);
    }
    outline
}

/// Numbers of pieces, each with tolerances at which these curves are accepted.
fn settings() -> impl Iterator<Item = (u32, i32)> {
    // A band of fewer pieces is wider, and refused sooner.
    let least = |m| match m {
        1 => 16,
        2 => 5,
        _ => 3,
    };
    let each = |m| [3, 5, 16, 100, 1_000, 100_000].map(|tolerance| (m, tolerance));
    (1..=8).flat_map(each).filter(move |&(m, tolerance)| tolerance >= least(m))
}

#[test]
fn nodes_are_twice_the_leaves_less_the_curves() {
    for (m, tolerance) in settings() {
        let (report, _) = accepted_in(m, &lively(m), tolerance);
        assert_eq!(report.curves, if m < 3 { 4 } else { 6 });
        assert_eq!(report.nodes, 2 * report.leaves - report.curves);
    }
}

#[test]
fn leaves_follow_one_another_by_the_documents_rule() {
    for (m, tolerance) in settings() {
        let (report, records) = accepted_in(m, &lively(m), tolerance);
        let (mut curve, mut node) = (0, 1);
        for leaf in records.chunks_exact(record_length(m)) {
            assert_eq!(leaf[0], curve);
            // From a node down to the leaf it begins with: halve to the left.
            while node < leaf[1] {
                node *= 2;
            }
            assert_eq!(leaf[1], node);
            node = (node + 1) >> (node + 1).trailing_zeros();
            if node == 1 {
                curve += 1;
            }
        }
        assert_eq!((curve as u64, node), (report.curves, 1));
    }
}

#[test]
fn no_leaf_is_deeper_than_its_second_differences_say() {
    for (m, tolerance) in settings() {
        let (_, records) = accepted_in(m, &lively(m), tolerance);
        // The degree of each curve, and its largest second difference over both coordinates.
        let curves: [(usize, i128); 6] = [(3, 40_000), (1, 0), (2, 60_000), (3, 30), (4, 27), (5, 20)];
        for leaf in records.chunks_exact(record_length(m)) {
            let depth = (leaf[1] as u32).ilog2();
            let (degree, largest) = curves[leaf[0] as usize];
            let g = if degree == 1 { 0 } else { by_pieces(degree, "G", m as usize) };
            let allows = |j: u32| {
                let bound = 16 * g * largest + 20_000 * 4_i128.pow(j);
                2 * bound.pow(2) <= (10_000 * i128::from(tolerance) * 4_i128.pow(j)).pow(2)
            };
            let deepest = if degree <= 3 { 8 } else { 4 };
            let least = (0..=deepest).find(|&j| allows(j)).unwrap_or(deepest);
            assert!(depth <= least, "depth {depth} of curve {} at {tolerance}, m {m}", leaf[0]);
        }
    }
}
