//! `contour inspect` and examples/inspect.c: one grammar, and the same output, words and status on every pair of files, whole
//! or damaged, and where something fails.

#[path = "../../contour-band/tests/c/mod.rs"]
mod c;
mod common;

use common::{absent, run, written, Ended, CONTOUR};
use std::fs::{self, File};
use std::path::{Path, PathBuf};
use std::process::Command;
use std::sync::OnceLock;

/// The program in C.
fn in_c() -> &'static Path {
    static MADE: OnceLock<PathBuf> = OnceLock::new();
    MADE.get_or_init(|| c::compiled(&c::root().join("examples/inspect.c"), "inspect"))
}

/// What both do with two files, which must be the same.
fn both(outline: &Path, points: &Path) -> Ended {
    let [outline, points] = [outline, points].map(|file| file.to_str().expect("the name is text"));
    let by_c = run(in_c(), &[outline, points]);
    let by_contour = run(CONTOUR, &["inspect", outline, points]);
    assert_eq!(by_contour, by_c);
    by_c
}

/// What both do with two texts.
fn both_on(name: &str, outline: impl AsRef<[u8]>, points: impl AsRef<[u8]>) -> Ended {
    both(&written(&format!("{name}.outline"), outline), &written(&format!("{name}.points"), points))
}

#[test]
fn both_print_what_is_expected() {
    let folder = c::root().join("examples");
    for (outline, points, expected, status) in [
        ("outline.txt", "points.txt", "inspect.expected", 2),
        ("quintic.txt", "quintic.points.txt", "quintic.expected", 1),
        ("spline.txt", "spline.points.txt", "spline.expected", 0),
    ] {
        let ended = both(&folder.join(outline), &folder.join(points));
        let expected = fs::read_to_string(folder.join(expected)).expect("the expected output is there");
        assert_eq!(
            (ended.status, ended.out, ended.err),
            (Some(status), expected, String::new()),
            "{outline}"
        );
    }
}

#[test]
fn the_status_tells_on_off_and_refused() {
    let line = "(tolerance 2)\n(curve (0 0) (0 1))\n";
    for (points, status) in [
        ("", 0),
        ("(point (0 0))\n", 0),
        ("(point (0 0))\n(point (0 99))\n", 1),
        ("(point (0 0))\n(point (0 536870913))\n", 2),
        ("(point (0 99))\n(point (536870913 0))\n(point (0 0))\n", 2),
    ] {
        assert_eq!(both_on("status", line, points).status, Some(status), "{points}");
    }
}

#[test]
fn both_refuse_a_file_with_a_mistake_by_its_line() {
    const NO_TOLERANCE: &str = "outline, line 1: (tolerance T) is expected";
    const NO_FIRST: &str =
        "outline, line 2: (curve (x y) (x y) ..) of 2 to 6 points or (spline (x y) ..) is expected";
    const NO_CURVE: &str = "outline, line 3: (curve (x y) (x y) ..) of 2 to 6 points is expected";
    let zeros = "0".repeat(200);
    let line = "(tolerance 2)\n(curve (0 0) (0 1))\n";
    let mut cases: Vec<(String, String, &str)> = Vec::new();
    for first in
        ["", "(tolerance )", "(tolerance 2147483648)", "(tolerance 2", "(tolerance +2)", "(tolerance  2)"]
    {
        cases.push((first.to_owned(), String::new(), NO_TOLERANCE));
    }
    for first in [
        "(tolerance 2) ",
        "(tolerance 02)",
        "(tolerance -0)",
        "(tolerance 2)\0",
        "\u{feff}(tolerance 2)",
        "\n",
    ] {
        cases.push((first.to_owned(), String::new(), NO_TOLERANCE));
    }
    cases.push((format!("(tolerance {zeros}2)\n(curve (0 0) (0 1))\n"), String::new(), NO_TOLERANCE));
    for second in
        ["(curve (0 0))", "(curve (0 0) (0 x))", "(curve (0 0) (0 1)", "(point (0 0))", "", "(spline)"]
    {
        cases.push((format!("(tolerance 2)\n{second}\n"), String::new(), NO_FIRST));
    }
    let seven = " (0 0)".repeat(7);
    cases.push((format!("(tolerance 2)\n(curve{seven})\n"), String::new(), NO_FIRST));
    for third in [
        "(curve (0 0))",
        "(spline (0 0) (0 0) (0 0) (0 0))",
        "(tolerance 2)",
        "\0",
        "(curve (0 1) (0 2))\r\r",
    ] {
        cases.push((format!("{line}{third}\n"), String::new(), NO_CURVE));
    }
    let spline = "(tolerance 9)\n(spline (0 0) (10 30) (20 30) (30 0))\n";
    cases.push((format!("{spline}\n"), String::new(), "outline, line 3: a spline stands alone"));
    for (points, said) in [
        ("(point (0 0))\n(point 0 0)\n", "points, line 2: (point (x y)) is expected"),
        ("(point (0 0) (1 1))\n", "points, line 1: (point (x y)) is expected"),
        ("(point (0 0))\n\n", "points, line 2: (point (x y)) is expected"),
    ] {
        cases.push((line.to_owned(), points.to_owned(), said));
    }
    for (outline, points, said) in cases {
        let ended = both_on("mistake", &outline, points);
        assert_eq!((ended.status, ended.out.as_str()), (Some(2), ""), "{outline:?}");
        assert!(ended.err.ends_with(&format!(".{said}\n")), "{outline:?}: {}", ended.err);
    }
}

#[test]
fn both_tell_a_refusal_by_number_words_and_line() {
    let too_many = format!("(tolerance 2)\n{}", "(curve (0 0) (0 0))\n".repeat(4_100));
    let three_million = format!("(tolerance 2)\n{}", "(curve (0 0) (0 0))\n".repeat(3_000_000));
    for (outline, said) in [
        ("(tolerance 1)\n(curve (0 0) (0 1))\n", ", line 1: refused 1 0: the tolerance is not 2 to 1048576"),
        ("(tolerance 2)\n", ": refused 6 0: the outline has no curve"),
        (&too_many, ", line 4098: refused 5 20480: the outline has more than 4096 curves"),
        (&three_million, ", line 4098: refused 5 20480: the outline has more than 4096 curves"),
        (
            "(tolerance 2)\n(curve (0 0) (0 1))\n(curve (0 0) (0 1))\n",
            ", line 3: refused 17 5: a curve does not begin",
        ),
        (
            "(tolerance 2)\n(curve (0 0) (0 1048577))\n",
            ", line 2: refused 4 4: a coordinate is not -1048576 to",
        ),
        (
            "(tolerance 2)\n(curve (0 0) (0 1))\n(curve (0 1) (0 99999) (0 0))\n",
            ", line 3: refused 7 768: a stretch",
        ),
        (
            "(tolerance 2)\n(spline (0 0) (0 0) (0 0))\n",
            ", line 2: refused 24 6: a B-spline has x and y of 4 to",
        ),
        (
            "(tolerance 2)\n(spline (0 0) (0 0) (0 0) (131073 0))\n",
            ", line 2: refused 25 6: a coordinate of a B-spline",
        ),
    ] {
        let ended = both_on("refused", outline, "(point (0 0))\n");
        assert_eq!((ended.status, ended.out.as_str()), (Some(2), ""), "{said}");
        assert!(ended.err.contains(&format!("refused.outline{said}")), "{said}: {}", ended.err);
    }
}

#[test]
fn both_take_ends_of_lines_of_both_kinds_and_a_last_line_without() {
    let outline = "(tolerance 12)\r\n(curve (0 0) (10 30) (20 30) (30 0))\r\n(curve (30 0) (0 0))";
    let ended = both_on("ends", outline, "(point (0 0))\r\n(point (240 0))");
    assert_eq!((ended.status, ended.out.lines().count()), (Some(0), 7), "{ended:?}");
}

#[test]
fn both_fail_where_a_file_cannot_be_read() {
    let outline = written("whole.outline", "(tolerance 2)\n(curve (0 0) (0 1))\n");
    let folder = PathBuf::from(env!("CARGO_TARGET_TMPDIR"));
    let nowhere = absent("nowhere");
    let long = folder.join("long");
    File::create(&long).and_then(|file| file.set_len((1 << 28) + 1)).expect("the file is made");
    for (file, said) in [
        (&folder, "Is a directory"),
        (&nowhere, "No such file or directory"),
        (&long, "it has more than 268435456 bytes"),
    ] {
        let words = format!("{}: {said}\n", file.display());
        assert_eq!(both(file, &outline), Ended { status: Some(2), out: String::new(), err: words.clone() });
        assert_eq!(both(&outline, file), Ended { status: Some(2), out: String::new(), err: words });
    }
    fs::remove_file(long).expect("the file is removed");
}

#[test]
fn both_fail_where_the_output_is_not_taken() {
    let many = "(point (0 0))\n".repeat(20_000);
    for (points, name) in [("(point (0 0))\n", "few"), (&many, "many")] {
        let outline = written(&format!("{name}.outline"), "(tolerance 2)\n(curve (0 0) (0 1))\n");
        let points = written(&format!("{name}.points"), points);
        let files = format!("{} {}", outline.display(), points.display());
        let programs = [format!("{} {files}", in_c().display()), format!("{CONTOUR} inspect {files}")];
        for (redirected, said) in [
            (">/dev/full", "standard output: No space left on device\n"),
            (">&-", "standard output: Bad file descriptor\n"),
            ("1</dev/null", "standard output: Bad file descriptor\n"),
            ("| true", ""),
        ] {
            for program in &programs {
                let line = format!("set -o pipefail; {program} {redirected}");
                let ended: Ended =
                    Command::new("bash").args(["-c", &line]).output().expect("bash runs").into();
                // Where nobody reads, a short answer may have been taken before.
                let gone = redirected.starts_with('|') && name == "few";
                assert!(ended.status == Some(2) || (gone && ended.status == Some(0)), "{line}: {ended:?}");
                assert_eq!((ended.out.as_str(), ended.err.as_str()), ("", said), "{line}");
            }
        }
    }
}

/// Numbers that follow from a seed.
struct Random(u64);

impl Random {
    fn below(&mut self, end: usize) -> usize {
        self.0 = self.0.wrapping_mul(6_364_136_223_846_793_005).wrapping_add(1_442_695_040_888_963_407);
        (self.0 >> 33) as usize % end
    }

    fn one_of<'a, T: ?Sized>(&mut self, choices: &[&'a T]) -> &'a T {
        choices[self.below(choices.len())]
    }
}

/// A text damaged in one place.
fn damaged(text: &[u8], random: &mut Random) -> Vec<u8> {
    const PIECES: [&[u8]; 22] = [
        b"\n",
        b"\r\n",
        b"\r",
        b"\0",
        b" ",
        b"(",
        b")",
        b"-",
        b"+",
        b"0",
        b"00",
        b"7",
        b"-0",
        b".",
        b"2147483648",
        b"-2147483648",
        b"1048577",
        b"131073",
        b"(spline",
        b"(curve",
        b"(point (1 2))\n",
        b"\xff",
    ];
    let at = random.below(text.len() + 1);
    let length = [0, 1, 1, 2, 9][random.below(5)].min(text.len() - at);
    let (before, rest) = text.split_at(at);
    match random.below(8) {
        0 => before.to_vec(),
        1 => [before, &rest[length..]].concat(),
        2 => [before, &rest[..length], rest].concat(),
        3 => String::from_utf8_lossy(text).replace('\n', "\r\n").into_bytes(),
        4 => {
            let mut lines: Vec<&[u8]> = text.split_inclusive(|&byte| byte == b'\n').collect();
            let (one, other) = (random.below(lines.len()), random.below(lines.len()));
            lines.swap(one, other);
            lines.concat()
        }
        _ => [before, random.one_of(&PIECES), &rest[length..]].concat(),
    }
}

#[test]
fn both_agree_on_random_damages() {
    const SEED: u64 = 39;
    const OUTLINES: [&str; 3] = [
        "(tolerance 12)\n(curve (0 0) (10 30) (20 30) (30 0))\n(curve (30 0) (30 -20))\n(curve (30 -20) (15 -32) (0 -20))\n",
        "(tolerance 40)\n(curve (0 0) (20 60) (40 -30) (80 90) (110 40) (120 0))\n(curve (120 0) (0 0))\n",
        "(tolerance 9)\n(spline (0 0) (10 30) (20 30) (30 0) (40 7))\n",
    ];
    let mut random = Random(SEED);
    let mut tally = [0; 3];
    for _ in 0..1_500 {
        let mut outline = random.one_of(&OUTLINES).as_bytes().to_vec();
        let mut points =
            b"(point (240 363))\n(point (0 0))\n(point (-99 480))\n(point (0 536870912))\n".to_vec();
        for _ in 0..random.below(3) {
            outline = damaged(&outline, &mut random);
        }
        for _ in 0..random.below(2) {
            points = damaged(&points, &mut random);
        }
        let ended = both_on("random", &outline, &points);
        tally[ended.status.expect("it ends by itself") as usize] += 1;
    }
    println!("inspect, random damages, seed {SEED}: status 0, 1 and 2: {tally:?}");
    assert!(tally[1] > 100 && tally[2] > 300, "{tally:?}");
}
