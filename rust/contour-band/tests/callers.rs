//! What the header promises to those who call it, beside the answers: NULL for a list of no numbers, refusals in words, the
//! version, and one prefix for every name.

mod c;

use contour_band::Refusal;
use std::collections::BTreeSet;
use std::fs;
use std::process::Command;

/// What a C program of this folder prints.
fn printed(name: &str) -> String {
    let source = c::root().join(format!("rust/contour-band/tests/{name}.c"));
    let run = Command::new(c::compiled(&source, name)).output().expect("the program runs");
    assert!(run.status.success(), "{:?}", run.status);
    String::from_utf8(run.stdout).expect("text is printed")
}

#[test]
fn null_is_taken_where_there_is_no_number() {
    let expected = "\
contour_band 6 0
contour_band 8 1
contour_station_band 6 0
contour_station_band 8 1
contour_spline_band 24 0
contour_spline_band 8 1
contour_binary64_band 6 0
contour_foretell 6 0
contour_foretell 8 1
contour_tightest 6 0
contour_exchange 6 0
contour_exchange 23 0
contour_judge 9 0
contour_judge_points 9 0
contour_judge_points 9 0
contour_judge_points 8 1
contour_judge_points 0 0
contour_quote 9 0
contour_band_and_judge 6 0
contour_band_and_judge 8 1
contour_draw 13 0
contour_box_units 0 0
contour_box_short 0 0
";
    assert_eq!(printed("null"), expected);
    // Every function that takes a list is called there.
    let header = fs::read_to_string(c::root().join("include/contour_band.h")).expect("the header is there");
    for name in
        functions(&header).iter().filter(|name| !["contour_version", "contour_refusal_text"].contains(name))
    {
        assert!(expected.lines().any(|line| line.split(' ').next() == Some(name)), "{name}");
    }
}

/// The names of the functions that a header declares.
fn functions(header: &str) -> Vec<&str> {
    let heads = header.lines().filter_map(|line| line.split_once('(')).map(|(head, _)| head);
    let declares =
        |head: &&str| ["struct ", "uint32_t ", "static inline "].iter().any(|word| head.starts_with(word));
    heads.filter(declares).filter_map(|head| head.rsplit([' ', '*']).next()).collect()
}

#[test]
fn every_name_has_one_prefix() {
    let header = fs::read_to_string(c::root().join("include/contour_band.h")).expect("the header is there");
    assert!(functions(&header).len() >= 10);
    let mut names: Vec<&str> = functions(&header);
    for line in header.lines() {
        let declared = ["#define ", "struct ", "enum "].iter().find_map(|word| line.strip_prefix(word));
        let constant =
            line.strip_prefix("    ").filter(|line| line.starts_with("CONTOUR") && line.contains(" = "));
        names.extend(declared.or(constant).and_then(|rest| rest.split([' ', '(']).next()));
    }
    assert!(names.len() > 60, "{}", names.len());
    for name in names {
        assert!(name.starts_with("contour_") || name.starts_with("CONTOUR_"), "{name}");
    }
}

/// A refusal of each kind.
const REFUSALS: &[Refusal] = &[
    Refusal::Tolerance,
    Refusal::Degree { index: 0 },
    Refusal::CutShort { length: 0 },
    Refusal::Coordinate { index: 0 },
    Refusal::TooManyCurves { index: 0 },
    Refusal::EmptyOutline,
    Refusal::TooWide { curve: 0, node: 0 },
    Refusal::TooFewRecords { leaves: 0 },
    Refusal::LeafListLength { length: 0 },
    Refusal::LeafListNumber { index: 0 },
    Refusal::PointX,
    Refusal::PointY,
    Refusal::BoxNumber { place: 0 },
    Refusal::TooFewVertices { length: 0 },
    Refusal::Gap { index: 0 },
    Refusal::Pieces,
    Refusal::TooManyLeaves { leaves: 0 },
    Refusal::TooFewPieces { index: 0 },
    Refusal::SplineLength { length: 0 },
    Refusal::SplineCoordinate { index: 0 },
    Refusal::TooManyRecords { length: 0 },
    Refusal::NotWhole { index: 0 },
    Refusal::NoSuchCurve { number: 0 },
    Refusal::OtherRecords { index: 0 },
    Refusal::OddPoints { length: 0 },
];

#[test]
fn refusals_have_the_same_words_in_c_and_in_rust() {
    let printed = printed("words");
    let mut lines = printed.lines();
    assert_eq!(lines.next(), Some("0.1.0 100 100"));
    let words: Vec<&str> = lines.collect();
    assert_eq!((words.len(), words[0]), (256, "nothing is refused"));
    for refusal in REFUSALS {
        assert_eq!(words[refusal.number() as usize], refusal.text());
    }
    // C has words for no number that Rust has no refusal for.
    let numbers: BTreeSet<u32> = REFUSALS.iter().map(|refusal| refusal.number()).collect();
    let in_c = (1..).zip(&words[1..]).filter(|(_, text)| **text != "no refusal has this number");
    assert!(in_c.map(|(number, _)| number).eq(numbers));
}
