//! The archive's functions, as include/contour_band.h declares them, behind safe ones.

use crate::leaf::BoxBounds;

/// `struct contour_band_answer`.
#[repr(C)]
#[derive(Debug, Clone, Copy, PartialEq, Eq)]
pub struct Answer {
    /// 0 where the input is accepted.
    pub refusal: u32,
    pub spot: u64,
    pub curves: u64,
    pub leaves: u64,
    pub nodes: u64,
}

/// `struct contour_band_foretold`.
#[repr(C)]
#[derive(Debug, Clone, Copy, PartialEq, Eq)]
pub struct Foretold {
    /// 0 where nothing is refused.
    pub refusal: u32,
    pub spot: u64,
    /// 0 where a curve has no depth.
    pub leaves: u64,
    pub nodes: u64,
}

/// `struct contour_band_tightest`.
#[repr(C)]
#[derive(Debug, Clone, Copy, PartialEq, Eq)]
pub struct Tightest {
    /// 0 where nothing is refused.
    pub refusal: u32,
    pub spot: u64,
    /// 0 where no tolerance fits.
    pub tolerance: u32,
}

/// `struct contour_band_judgement`.
#[repr(C)]
#[derive(Debug, Clone, Copy, PartialEq, Eq)]
pub struct Judgement {
    /// 0 where nothing is refused.
    pub refusal: u32,
    pub spot: u64,
    /// 1 where the point is on the band, else 0.
    pub on: u32,
    pub leaf: u64,
    pub cover: u64,
}

/// `struct contour_band_points`.
#[repr(C)]
#[derive(Debug, Clone, Copy, PartialEq, Eq)]
pub struct Points {
    /// 0 where nothing is refused.
    pub refusal: u32,
    pub spot: u64,
    pub points: u64,
}

/// `struct contour_band_quote`.
#[repr(C)]
#[derive(Debug, Clone, Copy, PartialEq, Eq)]
pub struct Quote {
    /// 0 where nothing is refused.
    pub refusal: u32,
    pub spot: u64,
    pub cents: u64,
}

/// `struct contour_band_outcome`.
#[repr(C)]
#[derive(Debug, Clone, Copy, PartialEq, Eq)]
pub struct Outcome {
    /// 0 where nothing is refused.
    pub refusal: u32,
    pub spot: u64,
    pub curves: u64,
    pub leaves: u64,
    pub nodes: u64,
    /// 1 where the point is on the band, else 0.
    pub on: u32,
    pub leaf: u64,
    pub cover: u64,
}

/// `struct contour_band_units`.
#[repr(C)]
#[derive(Debug, Clone, Copy, PartialEq)]
pub struct Units {
    /// 0 where the box is accepted.
    pub refusal: u32,
    pub spot: u64,
    pub x_low: f64,
    pub x_high: f64,
    pub y_low: f64,
    pub y_high: f64,
}

/// `struct contour_band_short`.
#[repr(C)]
#[derive(Debug, Clone, Copy, PartialEq)]
pub struct Short {
    /// 0 where the box is accepted.
    pub refusal: u32,
    pub spot: u64,
    /// 1 for a point, 2 for a middle, 0 where the box is refused.
    pub kind: u32,
    pub x: f64,
    pub y: f64,
    pub half_width: f64,
    pub half_height: f64,
}

/// `struct contour_band_box`.
#[repr(C)]
struct Box {
    x_low: i32,
    x_high: i32,
    y_low: i32,
    y_high: i32,
}

impl From<BoxBounds> for Box {
    fn from(b: BoxBounds) -> Box {
        Box { x_low: b.x.low, x_high: b.x.high, y_low: b.y.low, y_high: b.y.high }
    }
}

/// `struct contour_band_drawing`.
#[repr(C)]
#[derive(Debug, Clone, Copy, PartialEq, Eq)]
pub struct Drawing {
    /// 0 where the boxes are accepted.
    pub refusal: u32,
    pub spot: u64,
    pub vertices: u64,
}

extern "C" {
    fn contour_band(
        outline: *const i32,
        outline_length: usize,
        tolerance: i32,
        m: u32,
        records: *mut i32,
        records_length: usize,
    ) -> Answer;

    fn contour_station_band(
        outline: *const i32,
        outline_length: usize,
        tolerance: i32,
        m: u32,
        records: *mut i32,
        records_length: usize,
    ) -> Answer;

    fn contour_spline_band(
        points: *const i32,
        points_length: usize,
        tolerance: i32,
        m: u32,
        records: *mut i32,
        records_length: usize,
    ) -> Answer;

    fn contour_binary64_band(
        outline: *const f64,
        outline_length: usize,
        tolerance: i32,
        m: u32,
        records: *mut i32,
        records_length: usize,
    ) -> Answer;

    fn contour_foretell(
        outline: *const i32,
        outline_length: usize,
        tolerance: i32,
        m: u32,
        depths: *mut i32,
        depths_length: usize,
    ) -> Foretold;

    fn contour_tightest(outline: *const i32, outline_length: usize, m: u32, leaves: usize) -> Tightest;

    fn contour_exchange(
        outline: *const i32,
        outline_length: usize,
        tolerance: i32,
        m: u32,
        number: usize,
        curve: *const i32,
        given: usize,
        records: *mut i32,
        records_length: usize,
    ) -> Answer;

    fn contour_judge(leaves: *const i32, leaves_length: usize, m: u32, x: i32, y: i32) -> Judgement;

    fn contour_judge_points(
        leaves: *const i32,
        leaves_length: usize,
        m: u32,
        points: *const i32,
        points_length: usize,
        answers: *mut i64,
        answers_length: usize,
    ) -> Points;

    fn contour_quote(leaves: *const i32, leaves_length: usize, m: u32) -> Quote;

    fn contour_band_and_judge(
        outline: *const i32,
        outline_length: usize,
        tolerance: i32,
        m: u32,
        records: *mut i32,
        records_length: usize,
        x: i32,
        y: i32,
    ) -> Outcome;

    fn contour_draw(first: Box, second: Box, vertices: *mut i32, vertices_length: usize) -> Drawing;

    fn contour_box_units(b: Box) -> Units;

    fn contour_box_short(b: Box) -> Short;

    fn contour_version() -> u32;
}

/// The version of the archive.
pub fn version() -> u32 {
    // Safety: the function takes nothing and reads no memory.
    unsafe { contour_version() }
}

/// The answer for an outline. Writes to `records` as the header says.
pub fn band(outline: &[i32], tolerance: i32, m: u32, records: &mut [i32]) -> Answer {
    // Safety: the slices give valid, aligned, separate parts of memory, and the function is
    // proved to stay inside them for all contents and lengths.
    unsafe {
        contour_band(outline.as_ptr(), outline.len(), tolerance, m, records.as_mut_ptr(), records.len())
    }
}

/// The answer for an outline that is banded by the bench station. Writes to `records` as the header says.
pub fn station_band(outline: &[i32], tolerance: i32, m: u32, records: &mut [i32]) -> Answer {
    // Safety: as for `band`.
    unsafe {
        contour_station_band(
            outline.as_ptr(),
            outline.len(),
            tolerance,
            m,
            records.as_mut_ptr(),
            records.len(),
        )
    }
}

/// The answer for a B-spline. Writes to `records` as the header says.
pub fn spline_band(points: &[i32], tolerance: i32, m: u32, records: &mut [i32]) -> Answer {
    // Safety: as for `band`.
    unsafe {
        contour_spline_band(points.as_ptr(), points.len(), tolerance, m, records.as_mut_ptr(), records.len())
    }
}

/// The answer for an outline in binary64. Writes to `records` as the header says.
pub fn binary64_band(outline: &[f64], tolerance: i32, m: u32, records: &mut [i32]) -> Answer {
    // Safety: as for `band`.
    unsafe {
        contour_binary64_band(
            outline.as_ptr(),
            outline.len(),
            tolerance,
            m,
            records.as_mut_ptr(),
            records.len(),
        )
    }
}

/// What is foretold of an outline. Writes to `depths` as the header says.
pub fn foretell(outline: &[i32], tolerance: i32, m: u32, depths: &mut [i32]) -> Foretold {
    // Safety: as for `band`.
    unsafe {
        contour_foretell(outline.as_ptr(), outline.len(), tolerance, m, depths.as_mut_ptr(), depths.len())
    }
}

/// The tightest band of an outline that has so many leaves at most.
pub fn tightest(outline: &[i32], m: u32, leaves: usize) -> Tightest {
    // Safety: the slice gives a valid, aligned part of memory, and the function is proved to stay
    // inside it for all contents and lengths.
    unsafe { contour_tightest(outline.as_ptr(), outline.len(), m, leaves) }
}

/// The answer for an outline of which one curve is exchanged. Writes to `records` as the header says.
pub fn exchange(
    outline: &[i32],
    tolerance: i32,
    m: u32,
    number: usize,
    curve: &[i32; 13],
    given: usize,
    records: &mut [i32],
) -> Answer {
    // Safety: as for `band`; the function is proved to read of the new curve nothing but its 13 numbers.
    unsafe {
        contour_exchange(
            outline.as_ptr(),
            outline.len(),
            tolerance,
            m,
            number,
            curve.as_ptr(),
            given,
            records.as_mut_ptr(),
            records.len(),
        )
    }
}

/// The judgement of a point against a list of leaf records.
pub fn judge(leaves: &[i32], m: u32, x: i32, y: i32) -> Judgement {
    // Safety: the slice gives a valid, aligned part of memory, and the function is proved to stay
    // inside it for all contents and lengths.
    unsafe { contour_judge(leaves.as_ptr(), leaves.len(), m, x, y) }
}

/// The answer for a list of points. Writes to `answers` as the header says.
pub fn judge_points(leaves: &[i32], m: u32, points: &[i32], answers: &mut [i64]) -> Points {
    // Safety: as for `band`.
    unsafe {
        contour_judge_points(
            leaves.as_ptr(),
            leaves.len(),
            m,
            points.as_ptr(),
            points.len(),
            answers.as_mut_ptr(),
            answers.len(),
        )
    }
}

/// The quote for a leaf list.
pub fn quote(leaves: &[i32], m: u32) -> Quote {
    // Safety: as for `band`.
    unsafe { contour_quote(leaves.as_ptr(), leaves.len(), m) }
}

/// The outcome for an outline and a point. Writes to `records` as the header says.
pub fn band_and_judge(
    outline: &[i32],
    tolerance: i32,
    m: u32,
    records: &mut [i32],
    x: i32,
    y: i32,
) -> Outcome {
    // Safety: as for `band`.
    unsafe {
        contour_band_and_judge(
            outline.as_ptr(),
            outline.len(),
            tolerance,
            m,
            records.as_mut_ptr(),
            records.len(),
            x,
            y,
        )
    }
}

/// The answer for two boxes. Writes to `vertices` as the header says.
pub fn draw(first: BoxBounds, second: BoxBounds, vertices: &mut [i32]) -> Drawing {
    // Safety: as above.
    unsafe { contour_draw(first.into(), second.into(), vertices.as_mut_ptr(), vertices.len()) }
}

/// A box in stage units.
pub fn box_units(b: BoxBounds) -> Units {
    // Safety: the function takes a box by value and touches no memory of the caller.
    unsafe { contour_box_units(b.into()) }
}

/// The short form of a box.
pub fn box_short(b: BoxBounds) -> Short {
    // Safety: the function takes a box by value and touches no memory of the caller.
    unsafe { contour_box_short(b.into()) }
}

#[cfg(test)]
mod tests {
    use super::*;

    #[test]
    fn an_accepted_outline_has_no_spot() {
        let mut records = [0; 18];
        let answer = band(&[1, 0, 0, 0, 1], 2, 3, &mut records);
        let expected = Answer { refusal: 0, spot: 0, curves: 1, leaves: 1, nodes: 1 };
        assert_eq!(answer, expected);
    }

    #[test]
    fn a_refusal_counts_nothing() {
        let refused = |refusal, spot| Answer { refusal, spot, curves: 0, leaves: 0, nodes: 0 };
        let line = [1, 0, 0, 0, 1];
        let steep = [3, 0, 0, 0, 1_048_576, 0, 1_048_576, 0, 0];
        let mut records = [0; 18];
        for m in [0, 9, u32::MAX] {
            assert_eq!(band(&line, 2, m, &mut records), refused(18, 0));
            assert_eq!(band(&[], 1, m, &mut []), refused(18, 0));
        }
        assert_eq!(band(&line, 1, 3, &mut records), refused(1, 0));
        assert_eq!(band(&[6], 2, 3, &mut records), refused(2, 0));
        assert_eq!(band(&[1, 0], 2, 3, &mut records), refused(3, 2));
        assert_eq!(band(&[1, 0, 0, 1_048_577, 0], 2, 3, &mut records), refused(4, 3));
        assert_eq!(band(&[1, 0, 0, 0, 0].repeat(4_097), 2, 3, &mut records), refused(5, 20_480));
        assert_eq!(band(&line.repeat(4_097), 2, 3, &mut records), refused(17, 5));
        assert_eq!(band(&[], 2, 3, &mut records), refused(6, 0));
        assert_eq!(band(&steep, 2, 3, &mut records), refused(7, 256));
        assert_eq!(band(&line, 2, 3, &mut []), refused(8, 1));
        assert_eq!(band(&line, 2, 4, &mut records), refused(8, 1));
        assert_eq!(records, [0; 18]);
    }

    #[test]
    fn the_station_answers_with_its_own_limits() {
        let refused = |refusal, spot| Answer { refusal, spot, curves: 0, leaves: 0, nodes: 0 };
        let still = [1, 0, 0, 0, 0];
        let mut records = [0; 64 * 18];
        let expected = Answer { refusal: 0, spot: 0, curves: 64, leaves: 64, nodes: 64 };
        assert_eq!(station_band(&still.repeat(64), 2, 3, &mut records), expected);
        assert_eq!(station_band(&still.repeat(65), 2, 3, &mut records), refused(5, 320));
        // A bow that ends where it begins and has four leaves.
        let bow = [2, 0, 0, 0, 800, 0, 0];
        assert_eq!(station_band(&bow.repeat(32), 100, 3, &mut []), refused(8, 128));
        assert_eq!(station_band(&bow.repeat(33), 100, 3, &mut []), refused(19, 132));
    }

    #[test]
    fn a_spline_answers_with_its_own_checks() {
        let refused = |refusal, spot| Answer { refusal, spot, curves: 0, leaves: 0, nodes: 0 };
        let points = [0, 0, 10, 30, 20, 30, 30, 0];
        let mut records = [0; 18];
        assert_eq!(spline_band(&points[..6], 1, 9, &mut records), refused(18, 0));
        assert_eq!(spline_band(&points[..6], 1, 3, &mut records), refused(1, 0));
        assert_eq!(spline_band(&points[..6], 9, 3, &mut records), refused(24, 6));
        assert_eq!(spline_band(&points[..7], 9, 3, &mut records), refused(24, 7));
        assert_eq!(spline_band(&[0; 8_200], 9, 3, &mut records), refused(24, 8_200));
        let far = [0, 0, 10, 30, 20, -131_073, 30, 0];
        assert_eq!(spline_band(&far, 9, 3, &mut records), refused(25, 5));
        assert_eq!(spline_band(&points, 9, 3, &mut records[..17]), refused(8, 1));
        assert_eq!(records, [0; 18]);
        let expected = Answer { refusal: 0, spot: 0, curves: 1, leaves: 1, nodes: 1 };
        assert_eq!(spline_band(&points, 9, 3, &mut records), expected);
        let leaf = [0, 1, 160, 160, 400, 407, 213, 214, 453, 461, 266, 267, 453, 461, 320, 320, 400, 407];
        assert_eq!(records, leaf);
    }

    #[test]
    fn an_outline_in_binary64_answers_as_its_whole_numbers_do() {
        let refused = |refusal, spot| Answer { refusal, spot, curves: 0, leaves: 0, nodes: 0 };
        let mut records = [0; 18];
        for bad in [f64::NAN, f64::INFINITY, -f64::INFINITY, 0.5, 2_000_000.5, f64::MIN_POSITIVE] {
            assert_eq!(binary64_band(&[1.0, 0.0, 0.0, bad, 0.0], 2, 3, &mut records), refused(21, 3));
            assert_eq!(binary64_band(&[bad], 2, 3, &mut records), refused(2, 0));
        }
        for far in [1_048_577.0, -1e300, 9_007_199_254_740_994.0] {
            assert_eq!(binary64_band(&[1.0, 0.0, 0.0, far, 0.5], 2, 3, &mut records), refused(4, 3));
        }
        assert_eq!(binary64_band(&[-0.0], 2, 3, &mut records), refused(2, 0));
        assert_eq!(binary64_band(&[4.0], 2, 2, &mut records), refused(20, 0));
        assert_eq!(binary64_band(&[], 2, 3, &mut records), refused(6, 0));
        assert_eq!(binary64_band(&[], 1, 3, &mut records), refused(1, 0));
        assert_eq!(binary64_band(&[], 1, 9, &mut records), refused(18, 0));
        let line = [1.0, -0.0, 0.0, 0.0, 1.0];
        assert_eq!(binary64_band(&line, 2, 3, &mut records[..17]), refused(8, 1));
        assert_eq!(records, [0; 18]);
        let accepted = Answer { refusal: 0, spot: 0, curves: 1, leaves: 1, nodes: 1 };
        assert_eq!(binary64_band(&line, 2, 3, &mut records), accepted);
        let mut by_integers = [0; 18];
        assert_eq!(band(&[1, 0, 0, 0, 1], 2, 3, &mut by_integers), accepted);
        assert_eq!(records, by_integers);
    }

    #[test]
    fn a_refused_box_has_zeros() {
        let units = |refusal, spot| Units { refusal, spot, x_low: 0.0, x_high: 0.0, y_low: 0.0, y_high: 0.0 };
        let short = |refusal, spot, kind, x, y| Short {
            refusal,
            spot,
            kind,
            x,
            y,
            half_width: 0.0,
            half_height: 0.0,
        };
        for (spot, bad) in [[-FAR - 1, 0, 0, 0], [0, FAR + 1, 0, 0], [0, 0, 1, 0], [0, 0, 0, FAR + 1]]
            .into_iter()
            .enumerate()
        {
            assert_eq!(box_units(bad.into()), units(12, spot as u64));
            assert_eq!(box_short(bad.into()), short(12, spot as u64, 0, 0.0, 0.0));
        }
        assert_eq!(box_short([8, 8, -24, -24].into()), short(0, 0, 1, 0.5, -1.5));
        let middle = Short { half_width: 0.03125, ..short(0, 0, 2, 0.03125, -1.5) };
        assert_eq!(box_short([0, 1, -24, -24].into()), middle);
    }

    #[test]
    fn an_exchange_answers_for_the_old_outline_and_then_for_the_new_one() {
        let refused = |refusal, spot| Answer { refusal, spot, curves: 0, leaves: 0, nodes: 0 };
        // Curve A, and its chord: one leaf each.
        let outline = [3, 0, 0, 10, 30, 20, 30, 30, 0, 1, 30, 0, 0, 0];
        let mut records = [-1; 3 * 18];
        assert_eq!(band(&outline, 44, 3, &mut records).leaves, 2);
        let before = records;
        let bow = [2, 30, 0, 15, -40, 0, 0, 7, 7, 7, 7, 7, 7];
        let mut ask =
            |m, number, curve, given| exchange(&outline, 44, m, number, &curve, given, &mut records);
        assert_eq!(ask(9, 2, bow, 35), refused(18, 0));
        assert_eq!(ask(3, 2, bow, 35), refused(22, 2));
        assert_eq!(ask(3, usize::MAX, bow, 35), refused(22, u64::MAX));
        assert_eq!(ask(3, 1, [6; 13], 35), refused(23, 35));
        assert_eq!(ask(3, 1, [6; 13], 37), refused(23, 36));
        assert_eq!(ask(3, 1, [6; 13], 36), refused(2, 9));
        assert_eq!(ask(3, 0, [1, 0, 0, 3, 0, 7, 7, 7, 7, 7, 7, 7, 7], 36), refused(17, 5));
        assert_eq!(ask(3, 1, [2, 30, 0, 15, -800, 0, 0, 7, 7, 7, 7, 7, 7], 36), refused(8, 9));
        assert_eq!(records, before);
        let report = exchange(&outline, 44, 3, 1, &bow, 36, &mut records);
        let mut anew = [-1; 3 * 18];
        let changed = [&outline[..9], &bow[..7]].concat();
        assert_eq!(report, band(&changed, 44, 3, &mut anew));
        assert_eq!((records, report.leaves), (anew, 2));
    }

    #[test]
    fn a_refusal_and_a_curve_without_a_depth_foretell_nothing() {
        let told = |refusal, spot, leaves, nodes| Foretold { refusal, spot, leaves, nodes };
        // Curve A, and its chord.
        let outline = [3, 0, 0, 10, 30, 20, 30, 30, 0, 1, 30, 0, 0, 0];
        let mut depths = [7; 3];
        assert_eq!(foretell(&outline, 44, 3, &mut depths[..1]), told(8, 2, 0, 0));
        assert_eq!(foretell(&outline[..13], 44, 3, &mut depths), told(3, 13, 0, 0));
        assert_eq!(foretell(&outline, 1, 3, &mut depths), told(1, 0, 0, 0));
        assert_eq!(foretell(&outline, 1, 9, &mut depths), told(18, 0, 0, 0));
        assert_eq!(depths, [7; 3]);
        assert_eq!(foretell(&outline, 44, 3, &mut depths), told(0, 0, 3, 4));
        assert_eq!(depths, [1, 0, 7]);
        assert_eq!(foretell(&outline, 2, 3, &mut depths), told(0, 0, 0, 0));
        assert_eq!(depths, [-1, -1, 7]);
    }

    #[test]
    fn a_refusal_and_an_outline_that_nothing_fits_have_no_tolerance() {
        let answer = |refusal, spot, tolerance| Tightest { refusal, spot, tolerance };
        // Curve A, and its chord.
        let outline = [3, 0, 0, 10, 30, 20, 30, 30, 0, 1, 30, 0, 0, 0];
        assert_eq!(tightest(&outline, 3, 2), answer(0, 0, 44));
        assert_eq!(tightest(&outline, 3, 3), answer(0, 0, 12));
        assert_eq!(tightest(&outline, 3, 1), answer(0, 0, 0));
        assert_eq!(tightest(&outline, 3, usize::MAX).refusal, 0);
        assert_eq!(tightest(&outline[..13], 3, 2), answer(3, 13, 0));
        assert_eq!(tightest(&[], 3, 2), answer(6, 0, 0));
        assert_eq!(tightest(&[], 9, 2), answer(18, 0, 0));
    }

    #[test]
    fn degrees_4_and_5_have_refusals_of_their_own() {
        let refused = |refusal, spot| Answer { refusal, spot, curves: 0, leaves: 0, nodes: 0 };
        let mut records = [0; 18];
        for degree in [4, 5] {
            for m in [1, 2] {
                assert_eq!(band(&[degree], 2, m, &mut records), refused(20, 0));
            }
            assert_eq!(band(&[degree], 2, 3, &mut records), refused(3, 1));
            // At (0 0), (0 2^20), .. (0 2^20), (0 0).
            let mut steep = [0, 1_048_576].repeat(degree as usize + 1);
            steep[1] = 0;
            *steep.last_mut().expect("there are points") = 0;
            steep.insert(0, degree);
            assert_eq!(band(&steep, 2, 3, &mut records), refused(7, 16));
        }
        assert_eq!(records, [0; 18]);
    }

    const FAR: i32 = 536_870_912;

    /// A segment from (0 0) to (9 0), and one from there to (9 9). The boxes are single points.
    const LEAVES: [i32; 36] = [
        0, 1, 0, 0, 0, 0, 9, 9, 0, 0, 9, 9, 0, 0, 9, 9, 0, 0, //
        0, 1, 9, 9, 0, 0, 9, 9, 0, 0, 9, 9, 0, 0, 9, 9, 9, 9,
    ];

    #[test]
    fn only_a_point_that_is_on_names_a_record_and_a_cover() {
        let on = |leaf, cover| Judgement { refusal: 0, spot: 0, on: 1, leaf, cover };
        assert_eq!(judge(&LEAVES, 3, 4, 0), on(0, 0));
        assert_eq!(judge(&LEAVES, 3, 9, 4), on(1, 2));
        let off = Judgement { refusal: 0, spot: 0, on: 0, leaf: 0, cover: 0 };
        assert_eq!(judge(&LEAVES, 3, 10, 0), off);
        assert_eq!(judge(&LEAVES, 3, FAR, -FAR), off);
    }

    #[test]
    fn a_refused_point_or_list_is_not_on() {
        let refused = |refusal, spot| Judgement { refusal, spot, on: 0, leaf: 0, cover: 0 };
        let mut bad = LEAVES;
        bad[1] = 512;
        for m in [0, 9, u32::MAX] {
            assert_eq!(judge(&LEAVES, m, 4, 0), refused(18, 0));
            assert_eq!(judge(&[], m, FAR + 1, 0), refused(18, 0));
        }
        assert_eq!(judge(&[], 3, 4, 0), refused(9, 0));
        assert_eq!(judge(&LEAVES[..19], 3, 4, 0), refused(9, 19));
        assert_eq!(judge(&LEAVES, 4, 4, 0), refused(9, 36));
        assert_eq!(judge(&bad, 3, 4, 0), refused(10, 1));
        assert_eq!(judge(&LEAVES, 3, -FAR - 1, FAR + 1), refused(11, 0));
        assert_eq!(judge(&LEAVES, 3, 4, FAR + 1), refused(11, 1));
    }

    #[test]
    fn a_list_of_points_is_counted_unless_a_list_is_refused() {
        let refused = |refusal, spot| Points { refusal, spot, points: 0 };
        let points = [9, 4, 10, 0, 4, FAR + 1];
        let mut bad = LEAVES;
        bad[1] = 512;
        let mut answers = [-1; 10];
        for m in [0, 9, u32::MAX] {
            assert_eq!(judge_points(&[], m, &points[..5], &mut []), refused(18, 0));
        }
        assert_eq!(judge_points(&LEAVES[..19], 3, &points[..5], &mut []), refused(9, 19));
        assert_eq!(judge_points(&bad, 3, &points[..5], &mut []), refused(10, 1));
        assert_eq!(judge_points(&LEAVES, 3, &points[..5], &mut answers), refused(101, 5));
        assert_eq!(judge_points(&LEAVES, 3, &points, &mut answers[..8]), refused(8, 3));
        assert_eq!(judge_points(&LEAVES, 3, &[], &mut []), refused(0, 0));
        assert_eq!(answers, [-1; 10]);
        let judged = judge_points(&LEAVES, 3, &points, &mut answers);
        assert_eq!(judged, Points { refusal: 0, spot: 0, points: 3 });
        assert_eq!(answers, [1, 1, 2, 0, 0, 0, 11, 1, 0, -1]);
    }

    #[test]
    fn an_outcome_has_a_report_unless_something_is_refused() {
        let line = [1, 0, 0, 0, 1];
        let mut records = [0; 18];
        let nothing =
            Outcome { refusal: 0, spot: 0, curves: 0, leaves: 0, nodes: 0, on: 0, leaf: 0, cover: 0 };
        let refused = Outcome { refusal: 18, ..nothing };
        assert_eq!(band_and_judge(&line, 1, 9, &mut records, 0, 0), refused);
        let refused = Outcome { refusal: 1, ..nothing };
        assert_eq!(band_and_judge(&line, 1, 3, &mut records, 0, 0), refused);
        // Refusals of banding come first.
        let refused = Outcome { refusal: 8, spot: 1, ..nothing };
        assert_eq!(band_and_judge(&line, 2, 3, &mut records[..17], FAR + 1, 0), refused);
        let refused = Outcome { refusal: 11, spot: 1, ..nothing };
        assert_eq!(band_and_judge(&line, 2, 3, &mut records, 0, FAR + 1), refused);
        assert_eq!(records, [0; 18]);
        let off = Outcome { curves: 1, leaves: 1, nodes: 1, ..nothing };
        assert_eq!(band_and_judge(&line, 2, 3, &mut records, 0, 17), off);
        let on = Outcome { on: 1, cover: 2, ..off };
        assert_eq!(band_and_judge(&line, 2, 3, &mut records, 0, 15), on);
    }
}
