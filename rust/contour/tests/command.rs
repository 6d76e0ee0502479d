//! The command as a user types it: files, options, help, refusals in words, and exit statuses.

mod common;

use common::{absent, contour, contour_on, written, Ended};
use std::fs;

const ARCH: &str = "(tolerance 44)\n(curve (0 0) (10 30) (20 30) (30 0))\n";
const LEAF: &str = "curve 0 node 1 (0 0 0 38) (160 160 319 363) (320 320 319 363) (480 480 0 38)\n";

fn printed(out: &str) -> Ended {
    Ended { status: Some(0), out: out.to_owned(), err: String::new() }
}

/// The words of a command that fails: nothing on standard output, and status 2.
fn failed(ended: Ended) -> String {
    assert_eq!((ended.status, ended.out.as_str()), (Some(2), ""), "{}", ended.err);
    ended.err
}

#[test]
fn help_is_printed_for_the_command_and_for_each_of_its_commands() {
    let whole = contour(&["--help"]);
    assert_eq!(whole.status, Some(0));
    for word in ["COMMANDS", "OPTIONS", "FILES", "EXIT STATUS", "EXAMPLES", "--svg FILE", "(spline "] {
        assert!(whole.out.contains(word), "{word}");
    }
    assert!(whole.out.lines().all(|line| line.len() <= 80));
    for command in ["band", "inspect", "foretell", "quote", "tightest"] {
        assert!(whole.out.contains(&format!("  {command} ")), "{command}");
        let help = contour(&[command, "--help"]);
        assert!(
            help.status == Some(0) && help.out.starts_with(&format!("usage: contour {command} ")),
            "{command}"
        );
        assert_eq!(contour(&[command, "x", "y", "-h"]), help);
    }
    assert_eq!(contour(&["help"]), whole);
    assert_eq!(contour(&["-h"]), whole);
}

/// Every command of the section EXAMPLES of the help does what it is to do.
#[test]
fn the_examples_of_the_help_run() {
    let help = contour(&["--help"]).out;
    let (_, examples) = help.split_once("EXAMPLES\n").expect("the help has examples");
    for line in examples.lines() {
        let mut words: Vec<&str> = line.split_whitespace().skip(1).collect();
        let mut text = String::new();
        if let Some(at) = words.iter().position(|&word| word == "<") {
            let file = words.split_off(at)[1].to_owned();
            text = fs::read_to_string(format!("../../{file}")).expect("the example's file is there");
        }
        let picture = absent("example.svg");
        for word in words.iter_mut().filter(|word| word.ends_with(".svg")) {
            *word = picture.to_str().expect("the name is text");
        }
        let ended = contour_on(&words, &text);
        assert!(
            ended.status.is_some_and(|status| status < 2) || line.contains("points.txt"),
            "{line}: {ended:?}"
        );
        assert!(
            ended.err.is_empty() && ended.out.starts_with("tolerance") || line.contains("foretell"),
            "{line}"
        );
    }
}

#[test]
fn the_version_is_that_of_the_header() {
    let header = fs::read_to_string("../../include/contour_band.h").expect("the header is there");
    let version = env!("CARGO_PKG_VERSION");
    assert!(header.contains(&format!("#define CONTOUR_BAND_VERSION \"{version}\"\n")));
    assert!(header.contains(&format!("#define CONTOUR_BAND_VERSION_NUMBER {}\n", contour_band::version())));
    assert_eq!(contour(&["--version"]), printed(&format!("contour {version}, engine {version}\n")));
    assert_eq!(contour(&["band", "--version"]), contour(&["-V"]));
}

#[test]
fn an_outline_comes_from_a_file_or_from_standard_input() {
    let expected = format!("tolerance 44: curves 1, leaves 1, nodes 1\n{LEAF}");
    let file = written("arch", ARCH);
    let file = file.to_str().expect("the name is text");
    assert_eq!(contour(&["band", file]), printed(&expected));
    assert_eq!(contour_on(&["band", "-"], ARCH), printed(&expected));
    let points = contour_on(&["inspect", file, "-"], "(point (240 363))\n");
    assert!(
        points.status == Some(0) && points.out.ends_with("points 1: on 1, off 0, refused 0\n"),
        "{points:?}"
    );
}

#[test]
fn the_tolerance_and_the_pieces_are_chosen() {
    let bare = "(curve (0 0) (10 30) (20 30) (30 0))\n";
    let at_44 = contour_on(&["band", "-", "--tolerance", "44"], bare);
    assert_eq!(at_44, contour_on(&["band", "-"], ARCH));
    let at_43 = contour_on(&["band", "--tolerance=43", "-"], ARCH);
    assert!(at_43.out.starts_with("tolerance 43: curves 1, leaves 2, nodes 3\n"), "{at_43:?}");
    let eight = contour_on(&["band", "-", "--pieces", "8", "--tolerance", "7"], ARCH);
    assert!(eight.out.starts_with("tolerance 7: curves 1, leaves 1, nodes 1\n"), "{eight:?}");
    assert_eq!(eight.out.lines().nth(1).map(|line| line.matches('(').count()), Some(9));
}

#[test]
fn leaves_are_foretold() {
    assert_eq!(
        contour_on(&["foretell", "-", "--tolerance", "43"], ARCH),
        printed("curve 0: depth 1, leaves at most 2\ntolerance 43: leaves at most 2, nodes at most 3\n")
    );
    let line = "(tolerance 2)\n(curve (0 0) (0 1))\n";
    assert_eq!(
        contour_on(&["foretell", "-"], line),
        printed("curve 0: no depth\ntolerance 2: nothing is foretold, since a curve has no depth\n")
    );
    let spline = "(tolerance 9)\n(spline (0 0) (1 1) (2 2) (3 3))\n";
    let said = failed(contour_on(&["foretell", "-"], spline));
    assert_eq!(said, "standard input: leaves are foretold of curves, and this is a spline\n");
    let said =
        failed(contour_on(&["foretell", "-"], "(tolerance 2)\n(curve (0 0) (0 1))\n(curve (0 0) (0 1))\n"));
    assert!(said.starts_with("standard input, line 3: refused 17 5: "), "{said}");
}

#[test]
fn leaves_are_quoted() {
    let bow = "(tolerance 8)\n(curve (0 0) (10 30) (20 30) (30 0))\n(curve (30 0) (0 0))\n";
    assert_eq!(
        contour_on(&["quote", "-"], bow),
        printed("tolerance 8: curves 2, leaves 5, nodes 8\nquote 3.94\n")
    );
    assert!(contour_on(&["quote", "-", "--tolerance", "44"], bow).out.ends_with("\nquote 3.15\n"));
    let said = failed(contour_on(&["quote", "-", "--pieces", "0"], bow));
    assert!(said.starts_with("--pieces 0: refused 18 0: "), "{said}");
}

#[test]
fn the_tightest_band_is_found() {
    let of_leaves = |leaves: &str| contour_on(&["tightest", "-", "--leaves", leaves], ARCH);
    assert_eq!(of_leaves("1"), printed("tolerance 44: curves 1, leaves 1, nodes 1\n"));
    assert_eq!(of_leaves("2"), printed("tolerance 12: curves 1, leaves 2, nodes 3\n"));
    let none = of_leaves("0");
    assert_eq!(
        (none.status, none.out.as_str()),
        (Some(1), "no tolerance: there are more than 0 leaves at every one\n")
    );
    let bare =
        contour_on(&["tightest", "-", "--leaves=1", "--pieces=8"], "(curve (0 0) (10 30) (20 30) (30 0))\n");
    assert_eq!(bare, printed("tolerance 7: curves 1, leaves 1, nodes 1\n"));
    for (arguments, said) in [
        (&["tightest", "-"][..], "contour: tightest wants --leaves R\n"),
        (&["tightest", "-", "--leaves", "-1"], "contour: --leaves wants a count and not -1\n"),
        (
            &["tightest", "-", "--leaves", "1", "--tolerance", "9"],
            "contour: tightest finds the tolerance, so none is given\n",
        ),
        (&["band", "-", "--leaves", "1"], "contour: --leaves goes with tightest\n"),
        (&["tightest", "-", "--leaves", "1", "--pieces", "0"], "--pieces 0: refused 18 0: "),
        (
            &["tightest", "examples/spline.txt", "--leaves", "1"],
            "examples/spline.txt: the tightest band is of curves",
        ),
    ] {
        let words = failed(contour_on(arguments, ARCH));
        assert!(words.starts_with(said), "{arguments:?}: {words}");
    }
}

#[test]
fn numbers_of_curves_may_be_binary64() {
    let arch = "(tolerance 44)\n(curve (0.0 -0.0) (10.0 30.00) (20 30.0) (30.0 0))\n";
    assert_eq!(contour_on(&["band", "-", "--binary64"], arch), contour_on(&["band", "-"], ARCH));
    assert_eq!(contour_on(&["band", "-", "--binary64"], ARCH), contour_on(&["band", "-"], ARCH));
    let half = "(tolerance 44)\n(curve (0.0 0.0) (10.0 30.5))\n";
    for (arguments, said) in [
        (
            &["band", "-", "--binary64"][..],
            "standard input, line 2: refused 21 4: a coordinate is no whole number",
        ),
        (&["band", "-"], "standard input, line 2: (curve (x y) (x y) ..) of 2 to 6 points"),
        (&["foretell", "-", "--binary64"], "contour: --binary64 goes with what bands an outline"),
        (&["band", "-", "--binary64=1"], "contour: --binary64 takes no value"),
    ] {
        let words = failed(contour_on(arguments, half));
        assert!(words.starts_with(said), "{arguments:?}: {words}");
    }
}

#[test]
fn what_is_refused_is_told_in_words_with_its_place() {
    for (arguments, text, said) in [
        (
            &["band", "-"][..],
            "(tolerance 1)\n(curve (0 0) (0 1))\n",
            "standard input, line 1: refused 1 0: the tolerance ",
        ),
        (
            &["band", "-", "--tolerance", "1"],
            ARCH,
            "--tolerance 1: refused 1 0: the tolerance is not 2 to 1048576 ",
        ),
        (
            &["band", "-", "--pieces", "9"],
            ARCH,
            "--pieces 9: refused 18 0: m, the number of pieces of a leaf, is not 1 to 8",
        ),
        (&["band", "-", "--pieces=-3"], ARCH, "--pieces -3: refused 18 0: "),
        (
            &["band", "-", "--tolerance", "9"],
            "(curve (0 0) (0 1))\n(curve (0 0) (0 1))\n",
            "standard input, line 2: refused 17 5",
        ),
        (
            &["band", "-", "--pieces", "2"],
            "(tolerance 9)\n(curve (0 0) (0 1))\n(curve (0 1) (0 1) (0 1) (0 1) (0 1))\n",
            "standard input, line 3: refused 20 5: a curve of degree 4 or 5 takes 3 to 8 pieces",
        ),
        (&["band", "-", "--tolerance", "9"], "", "standard input: refused 6 0: the outline has no curve"),
        (&["band", "-"], "(curve (0 0) (0 1))\n", "standard input, line 1: (tolerance T) is expected"),
        (
            &["inspect", "examples/outline.txt", "-"],
            "(pt (0 0))\n",
            "standard input, line 1: (point (x y)) is expected",
        ),
        (&["band", "examples/nowhere.txt"], "", "examples/nowhere.txt: No such file or directory"),
        (&["band", "examples"], "", "examples: Is a directory"),
        (&["band", "-", "--svg", "examples"], ARCH, "examples: Is a directory"),
        (&["band", "-", "--svg", "/dev/full"], ARCH, "/dev/full: No space left on device"),
    ] {
        let words = failed(contour_on(arguments, text));
        assert!(words.starts_with(said), "{arguments:?}: {words}");
    }
}

#[test]
fn a_wrong_command_line_is_told() {
    for (arguments, said) in [
        (&[][..], "usage: contour band OUTLINE"),
        (&["bend", "x"], "contour: there is no command 'bend'\nTry: contour --help\n"),
        (&["band"], "contour: OUTLINE is wanted, and no file is given\n"),
        (&["band", "x", "y"], "contour: OUTLINE is wanted, and 2 files are given\n"),
        (&["inspect", "x"], "contour: OUTLINE and POINTS are wanted, and 1 file is given\n"),
        (&["inspect", "-", "-"], "contour: standard input (-) can be read once\n"),
        (&["band", "x", "--tolerance"], "contour: --tolerance wants a value after it\n"),
        (&["band", "x", "--tolerance", "ten"], "contour: --tolerance wants a whole number and not 'ten'\n"),
        (&["band", "x", "--pieces", "3.5"], "contour: --pieces wants a whole number and not '3.5'\n"),
        (&["band", "x", "--wide"], "contour: there is no option '--wide'\n"),
        (&["band", "x", "--boxes"], "contour: --boxes goes with --svg FILE\n"),
        (&["band", "x", "--boxes=2", "--svg", "y"], "contour: --boxes takes no value\n"),
    ] {
        let words = failed(contour(arguments));
        assert!(words.starts_with(said), "{arguments:?}: {words}");
    }
}
