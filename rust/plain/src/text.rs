//! The text program: from the bytes that it reads to the bytes that it prints.

use crate::band::{band_most, Most, Report};
use crate::form::{form, Form};
use crate::judge::{judge, Judgement};
use crate::pieces::record_length;
use crate::refusal::Refusal;
use std::fmt::Write;

/// How many bytes a text may have.
const LONGEST: usize = 16_384;

/// What is taken of a text's outline: leaves as they come.
const MOST: Most = Most { curves: 64, leaves: usize::MAX };

/// How many numbers are lent to banding.
const LENT: usize = 16_380;

/// The number of pieces of a leaf in every text.
const M: u32 = 3;

/// How many numbers a record then has.
const RECORD: usize = record_length(M);

/// What a text without a fault says.
#[derive(Debug, Default)]
struct Job {
    tolerance: i32,
    outline: Vec<i32>,
    points: Vec<(i32, i32)>,
}

/// What the program prints for a text.
pub fn answer(text: &[u8]) -> Vec<u8> {
    let printed = match read(text).and_then(carry_out) {
        Ok(lines) => lines,
        Err(refusal) => refused(refusal),
    };
    printed.into_bytes()
}

/// Check 16, then checks 14 and 15 line by line.
fn read(text: &[u8]) -> Result<Job, Refusal> {
    if text.len() > LONGEST {
        return Err(Refusal::TextTooLong { size: LONGEST + 1 });
    }
    if text.is_empty() {
        return Err(Refusal::OutOfOrder { line: 1 });
    }
    let mut job = Job::default();
    for (line, bytes) in (1..).zip(text.split_inclusive(|&byte| byte == b'\n')) {
        let form = bytes.strip_suffix(b"\n").and_then(form).ok_or(Refusal::NotAForm { line })?;
        match form {
            Form::Tolerance(tolerance) if line == 1 => job.tolerance = tolerance,
            Form::Curve(points) if line > 1 && job.points.is_empty() => {
                job.outline.push(points.len() as i32 - 1);
                job.outline.extend(points.concat());
            }
            Form::Point(x, y) if line > 1 => job.points.push((x, y)),
            _ => return Err(Refusal::OutOfOrder { line }),
        }
    }
    Ok(job)
}

/// The leaves and the counts of banding, then a line for each point.
fn carry_out(job: Job) -> Result<String, Refusal> {
    let mut records = vec![0; LENT];
    let report = band_most(&job.outline, MOST, job.tolerance, M, &mut records)?;
    records.truncate(RECORD * report.leaves as usize);
    let mut lines: String = records.chunks_exact(RECORD).map(leaf).collect();
    lines += &done(report);
    for (x, y) in job.points {
        lines += &match judge(&records, M, x, y) {
            Ok(Judgement::On { leaf, cover }) => format!("(on {leaf} {cover})\n"),
            Ok(Judgement::Off) => "(off)\n".to_string(),
            Err(refusal) => refused(refusal),
        };
    }
    Ok(lines)
}

/// The line of a leaf: its curve, its node and its four boxes.
fn leaf(record: &[i32]) -> String {
    let mut line = format!("(leaf {} {}", record[0], record[1]);
    for b in record[2..].chunks_exact(4) {
        write!(line, " ({} {} {} {})", b[0], b[1], b[2], b[3]).expect("a string takes all");
    }
    line + ")\n"
}

fn done(Report { curves, leaves, nodes }: Report) -> String {
    format!("(done {curves} {leaves} {nodes})\n")
}

fn refused(refusal: Refusal) -> String {
    format!("(refused {} {})\n", refusal.number(), refusal.spot())
}

#[cfg(test)]
mod tests {
    use super::*;

    const LISTING: &str = "\
(tolerance 44)
(curve (0 0) (10 30) (20 30) (30 0))
(point (240 363))
(point (240 364))
";

    const LEAF: &str = "(leaf 0 1 (0 0 0 38) (160 160 319 363) (320 320 319 363) (480 480 0 38))\n";

    fn printed(text: &str) -> String {
        String::from_utf8(answer(text.as_bytes())).expect("answers are plain letters")
    }

    /// The answer to a text of some lines.
    fn lines(lines: &[&str]) -> String {
        printed(&lines.iter().map(|line| format!("{line}\n")).collect::<String>())
    }

    const TOLERANCE: &str = "(tolerance 44)";
    const CURVE: &str = "(curve (0 0) (10 30) (20 30) (30 0))";
    const LINE: &str = "(curve (0 0) (0 1))";
    const BACK: &str = "(curve (0 1) (0 0))";
    const POINT: &str = "(point (240 363))";
    const FAR: &str = "(point (0 536870913))";
    const NO_FORM: &str = "(point (1  1))";

    #[test]
    fn the_listing() {
        assert_eq!(printed(LISTING), format!("{LEAF}(done 1 1 1)\n(on 0 1)\n(off)\n"));
    }

    #[test]
    fn no_points() {
        assert_eq!(lines(&[TOLERANCE, CURVE]), format!("{LEAF}(done 1 1 1)\n"));
    }

    #[test]
    fn numbers_below_zero_and_more_than_one_leaf() {
        let text = ["(tolerance 43)", "(curve (0 0) (-10 -30) (-20 -30) (-30 0))", "(curve (-30 0) (-30 1))"];
        let expected = "\
(leaf 0 2 (0 0 -10 0) (-80 -80 -211 -199) (-160 -160 -331 -319) (-240 -240 -370 -360))
(leaf 0 3 (-240 -240 -370 -360) (-320 -320 -331 -319) (-400 -400 -211 -199) (-480 -480 -10 0))
(leaf 1 1 (-480 -480 0 0) (-480 -480 5 6) (-480 -480 10 11) (-480 -480 16 16))
(done 2 3 4)
";
        assert_eq!(lines(&text), expected);
    }

    #[test]
    fn a_refused_point_is_followed_by_the_next() {
        let text =
            [TOLERANCE, CURVE, FAR, POINT, "(point (-536870913 536870913))", "(point (536870912 0))", POINT];
        let judged = "(refused 11 1)\n(on 0 1)\n(refused 11 0)\n(off)\n(on 0 1)\n";
        assert_eq!(lines(&text), format!("{LEAF}(done 1 1 1)\n{judged}"));
    }

    #[test]
    fn the_size_is_tried_first() {
        let start = format!("{TOLERANCE}\n{CURVE}\n{}", "(point (240 363))\n".repeat(905));
        let longest = format!("{start}{}", "(point (0 0))\n".repeat(3));
        assert_eq!(longest.len(), 16_384);
        let judged = "(on 0 1)\n".repeat(905) + &"(on 0 0)\n".repeat(3);
        assert_eq!(printed(&longest), format!("{LEAF}(done 1 1 1)\n{judged}"));
        let longer = format!("{start}{}(point (10 0))\n", "(point (0 0))\n".repeat(2));
        assert_eq!(longer.len(), 16_385);
        assert_eq!(printed(&longer), "(refused 16 16385)\n");
        for byte in [b'\n', b'a', 0, 255] {
            assert_eq!(answer(&vec![byte; 16_384]), b"(refused 14 1)\n");
            assert_eq!(answer(&vec![byte; 16_385]), b"(refused 16 16385)\n");
            assert_eq!(answer(&vec![byte; 100_000]), b"(refused 16 16385)\n");
        }
    }

    #[test]
    fn an_empty_text_is_out_of_order_and_an_empty_line_is_no_form() {
        assert_eq!(printed(""), "(refused 15 1)\n");
        assert_eq!(printed("\n"), "(refused 14 1)\n");
        assert_eq!(lines(&[TOLERANCE, "", CURVE]), "(refused 14 2)\n");
        assert_eq!(lines(&[TOLERANCE, CURVE, POINT, ""]), "(refused 14 4)\n");
    }

    #[test]
    fn a_last_line_without_byte_10_is_no_form() {
        for cut in 1..LISTING.len() {
            let line = 1 + LISTING[..cut].matches('\n').count();
            if LISTING[..cut].ends_with('\n') {
                assert!(!printed(&LISTING[..cut]).starts_with("(refused 1"));
            } else {
                assert_eq!(printed(&LISTING[..cut]), format!("(refused 14 {line})\n"));
            }
        }
        // Before its order, but after the lines before it.
        assert_eq!(printed(CURVE), "(refused 14 1)\n");
        assert_eq!(printed(&format!("{CURVE}\n{CURVE}")), "(refused 15 1)\n");
    }

    #[test]
    fn a_text_is_a_tolerance_then_curves_then_points() {
        assert_eq!(lines(&[CURVE, TOLERANCE]), "(refused 15 1)\n");
        assert_eq!(lines(&[POINT, TOLERANCE, CURVE]), "(refused 15 1)\n");
        assert_eq!(lines(&[TOLERANCE, TOLERANCE, CURVE]), "(refused 15 2)\n");
        assert_eq!(lines(&[TOLERANCE, CURVE, TOLERANCE]), "(refused 15 3)\n");
        assert_eq!(lines(&[TOLERANCE, CURVE, POINT, TOLERANCE]), "(refused 15 4)\n");
        assert_eq!(lines(&[TOLERANCE, CURVE, POINT, CURVE]), "(refused 15 4)\n");
        assert_eq!(lines(&[TOLERANCE, POINT, CURVE]), "(refused 15 3)\n");
    }

    #[test]
    fn the_first_faulty_line_decides() {
        assert_eq!(lines(&[NO_FORM]), "(refused 14 1)\n");
        assert_eq!(lines(&[CURVE, NO_FORM]), "(refused 15 1)\n");
        assert_eq!(lines(&[TOLERANCE, NO_FORM, TOLERANCE]), "(refused 14 2)\n");
        // On one line, that it is no form comes before its place.
        assert_eq!(lines(&[TOLERANCE, CURVE, POINT, "(curve (0 0))"]), "(refused 14 4)\n");
    }

    #[test]
    fn every_line_is_tried_before_banding() {
        let bad_tolerance = "(tolerance 1)";
        assert_eq!(lines(&[bad_tolerance]), "(refused 1 0)\n");
        assert_eq!(lines(&[bad_tolerance, CURVE, POINT]), "(refused 1 0)\n");
        assert_eq!(lines(&[bad_tolerance, CURVE, NO_FORM]), "(refused 14 3)\n");
        assert_eq!(lines(&[bad_tolerance, CURVE, POINT, CURVE]), "(refused 15 4)\n");
        assert_eq!(lines(&[bad_tolerance, FAR]), "(refused 1 0)\n");
    }

    #[test]
    fn tolerances_at_the_ends_of_their_range() {
        for (tolerance, taken) in [("2", true), ("1048576", true), ("1", false), ("1048577", false)] {
            let answer = lines(&[&format!("(tolerance {tolerance})"), LINE]);
            assert_eq!(answer.starts_with("(leaf 0 1 "), taken);
            assert_eq!(answer == "(refused 1 0)\n", !taken);
        }
        assert_eq!(lines(&["(tolerance -2147483648)", LINE]), "(refused 1 0)\n");
        assert_eq!(lines(&["(tolerance 2147483648)", LINE]), "(refused 14 1)\n");
    }

    #[test]
    fn no_curve_lines() {
        assert_eq!(lines(&[TOLERANCE]), "(refused 6 0)\n");
        assert_eq!(lines(&[TOLERANCE, POINT, FAR]), "(refused 6 0)\n");
    }

    #[test]
    fn coordinates_are_named_by_their_index_in_the_outline() {
        let bad = "(curve (0 0) (0 1048577) (-2147483648 0))";
        assert_eq!(lines(&[TOLERANCE, bad, POINT]), "(refused 4 4)\n");
        assert_eq!(lines(&[TOLERANCE, CURVE, "(curve (30 0) (0 0))", bad]), "(refused 4 18)\n");
        assert_eq!(lines(&[TOLERANCE, "(curve (0 -1048576) (1048576 0))"]).lines().count(), 2);
    }

    #[test]
    fn a_65th_curve() {
        let most: Vec<&str> = [TOLERANCE].into_iter().chain([LINE, BACK].repeat(32)).collect();
        assert!(lines(&most)
            .ends_with("(leaf 63 1 (0 0 16 16) (0 0 10 11) (0 0 5 6) (0 0 0 0))\n(done 64 64 64)\n"));
        // Whether it meets the one before or not.
        for another in [LINE, BACK] {
            let more = [&most[..], &[another]].concat();
            assert_eq!(lines(&more), "(refused 5 320)\n");
        }
    }

    #[test]
    fn curves_that_do_not_meet() {
        assert_eq!(lines(&[TOLERANCE, LINE, LINE, POINT]), "(refused 17 5)\n");
        assert_eq!(lines(&[TOLERANCE, CURVE, "(curve (30 1) (0 0))"]), "(refused 17 9)\n");
        assert_eq!(lines(&[TOLERANCE, CURVE, "(curve (29 0) (0 0))"]), "(refused 17 9)\n");
        assert_eq!(lines(&[TOLERANCE, LINE, LINE, NO_FORM]), "(refused 14 4)\n");
    }

    #[test]
    fn a_curve_that_is_too_wide() {
        let wide = "(curve (0 0) (0 1048576) (0 1048576) (0 0))";
        assert_eq!(lines(&["(tolerance 2)", wide, POINT]), "(refused 7 256)\n");
        assert_eq!(lines(&["(tolerance 2)", BACK, wide]), "(refused 7 768)\n");
    }

    #[test]
    fn room_for_910_leaves() {
        // At tolerance 3 these heights give 256, 256, 256, 128, 8, 4 and 2 leaves.
        let heights = [65_536, 65_536, 65_536, 16_384, 64, 16, 4];
        let curves = heights.map(|height| format!("(curve (0 0) (0 {height}) (0 0))\n")).concat();
        let fits = printed(&format!("(tolerance 3)\n{curves}{POINT}\n"));
        assert_eq!(fits.lines().count(), 910 + 2);
        assert!(fits.ends_with("(done 7 910 1813)\n(off)\n"));
        let one_more = printed(&format!("(tolerance 3)\n{curves}{LINE}\n{POINT}\n"));
        assert_eq!(one_more, "(refused 8 911)\n");
    }
}
