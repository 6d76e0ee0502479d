//! include/contour_band.h from C: programs are compiled against it, linked with the archive and run.

mod c;

use std::fs;
use std::path::{Path, PathBuf};
use std::process::Command;

const EXPECTED: &str = "\
0 0 1 1 1
0 1 0 0 0 38 160 160 319 363 320 320 319 363 480 480 0 38 -1
1 0 0 0 0
3 8 0 0 0
8 2 0 0 0
17 5 0 0 0
18 0 0 0 0
18 0 0 0 0
18 0 0 0 0
0 0 1 0 1
0 0 0 0 0
0 0 0 0 0
11 0 0 0 0
11 1 0 0 0
9 19 0 0 0
10 1 0 0 0
18 0 0 0 0
0 0 4: 1 0 1 0 0 0 11 0 0 11 1 0 -1
0 0 1: 1 0 1 -1 -1 -1 -1 -1 -1 -1 -1 -1 -1
0 0 0: -1 -1 -1 -1 -1 -1 -1 -1 -1 -1 -1 -1 -1
18 0 0: -1 -1 -1 -1 -1 -1 -1 -1 -1 -1 -1 -1 -1
9 19 0: -1 -1 -1 -1 -1 -1 -1 -1 -1 -1 -1 -1 -1
10 1 0: -1 -1 -1 -1 -1 -1 -1 -1 -1 -1 -1 -1 -1
101 7 0: -1 -1 -1 -1 -1 -1 -1 -1 -1 -1 -1 -1 -1
8 3 0: -1 -1 -1 -1 -1 -1 -1 -1 -1 -1 -1 -1 -1
8 2 0 0 0
  0 0 0
0 0 1 2 3
  1 1 0
0 0 1 2 3
  0 0 0
11 1 0 0 0
  0 0 0
18 0 0 0 0
  0 0 0
0 0 1 2 3
0 0 1 1 1
20 0 0 0 0
20 0 0 0 0
3 12 0 0 0
2 0 0 0 0
0 0 1 1 1
0 0 1 0 0
0 0 1 1 1
0 0 1 0 1
0 0 1 1 1
0 0 1 0 2
0 0 1 1 1
0 0 1 0 3
0 0 1 1 1
0 0 1 0 4
0 0 1 1 1
0 0 1 0 5
0 0 1 1 1
0 0 1 0 6
0 0 1 1 1
0 0 1 0 7
0 0 32 128 224
8 128 0 0 0
0 0 32 128 224
19 132 0 0 0
19 132 0 0 0
8 132 0 0 0
8 64 0 0 0
5 320 0 0 0
0 0 1 1 1
0 1 160 160 400 407 213 214 453 461 266 267 453 461 320 320 400 407
0 0 1 0 1
0 0 0 0 0
18 0 0 0 0
1 0 0 0 0
24 6 0 0 0
24 9 0 0 0
25 3 0 0 0
8 1 0 0 0
0 0 4096 4096 4096
24 8200 0 0 0
0 0 3 4 1 0 7
0 0 3 4 1 0 7
8 2 0 0 7 7 7
0 0 0 0 -1 -1 7
0 0 2 2 0 0 7
1 0 0 0 7 7 7
0 0 0
0 0 0
0 0 44
0 0 12
0 0 2
0 0 2
3 13 0
6 0 0
18 0 0
0 0 2 2 2
  0 0  1 0  -1 -1  -1
0 0 2 3 4
  0 739  0 19  1 0  -1
8 3 0 0 0
  0 38  1 0  -1 -1  -1
22 2 0 0 0
  0 38  1 0  -1 -1  -1
22 18446744073709551615 0 0 0
  0 38  1 0  -1 -1  -1
23 35 0 0 0
  0 38  1 0  -1 -1  -1
23 36 0 0 0
  0 38  1 0  -1 -1  -1
23 35 0 0 0
  0 38  1 0  -1 -1  -1
17 5 0 0 0
  0 38  1 0  -1 -1  -1
2 9 0 0 0
  0 38  1 0  -1 -1  -1
0 0 158
0 0 315
0 0 394
18 0 0
9 0 0
10 1 0
26 10485770 0
0 0 6 0 0 1 0 4 3 4 4 3 4 0 1 0 0 0 0
13 15 0 0 0 0 0 0 0 0 0 0 0 0 0 0 0 0 0
12 7 0 0 0 0 0 0 0 0 0 0 0 0 0 0 0 0 0
0 0 1 1 1
0 1 0 0 0 38 160 160 319 363 320 320 319 363 480 480 0 38
3 9 0 0 0
2 0 0 0 0
21 6 0 0 0
2 0 0 0 0
4 6 0 0 0
2 0 0 0 0
21 6 0 0 0
2 0 0 0 0
21 6 0 0 0
2 0 0 0 0
4 6 0 0 0
2 0 0 0 0
4 6 0 0 0
2 0 0 0 0
21 8 0 0 0
3 1 0 0 0
8 1 0 0 0
6 0 0 0 0
1 0 0 0 0
18 0 0 0 0
0 0 10 10 19.9375 22.6875
0 0 middle 10 21.3125 0 1.375
0 0 10 10 -19.9375 -19.9375
0 0 point 10 -19.9375 0 0
0 0 -33554432 33554432 33554431.9375 33554432
0 0 middle 0 33554431.96875 33554432 0.03125
0 0 0 0 0 0
0 0 point 0 0 0 0
12 0 0 0 0 0
12 0 refused 0 0 0 0
12 3 0 0 0 0
12 3 refused 0 0 0 0
";

/// What a C program prints.
fn printed(source: &Path, name: &str) -> String {
    let run = Command::new(c::compiled(source, name)).output().expect("the program runs");
    assert!(run.status.success());
    String::from_utf8(run.stdout).expect("text is printed")
}

#[test]
fn a_c_program_gets_the_same_answers() {
    assert_eq!(printed(&c::root().join("rust/contour-band/tests/header.c"), "header"), EXPECTED);
}

/// What the header says of the stack of a call: of the station's, for curves of each degree, of a list in binary64, of a
/// B-spline's, refused or banded, with the most leaves or few, and of the tightest band's; of an exchange, from every degree to
/// every degree; of judging a list of points; and of a quote.
#[test]
fn calls_take_little_stack() {
    let printed = printed(&c::root().join("rust/contour-band/tests/stack.c"), "stack");
    let mut most = [0; 5];
    let (mut binary64, mut splines, mut tightest, mut exchanges, mut points, mut quotes) = (0, 0, 0, 0, 0, 0);
    for line in printed.lines() {
        let (call, numbers) = line.split_once(' ').expect("a word and numbers are printed");
        let numbers: Vec<i32> = numbers.split(' ').map(|n| n.parse().expect("a number is printed")).collect();
        match (call, &numbers[..]) {
            ("promised", promised) => assert_eq!(promised, [6_144, 34_816, 17_408, 12_288]),
            ("station", &[degree, bytes]) => {
                assert!(bytes <= 6_144, "{bytes} bytes of stack at degree {degree}");
                let at = usize::try_from(degree).expect("a degree is printed") - 1;
                most[at] = bytes.max(most[at]);
            }
            ("binary64", &[bytes]) => {
                assert!(bytes <= 6_144, "{bytes} bytes of stack");
                binary64 = bytes.max(binary64);
            }
            ("spline", &[bytes]) => {
                assert!(bytes <= 6_144, "{bytes} bytes of stack");
                splines = bytes.max(splines);
            }
            ("tightest", &[bytes]) => {
                assert!(bytes <= 6_144, "{bytes} bytes of stack");
                tightest = bytes.max(tightest);
            }
            ("exchange", &[bytes]) => {
                assert!(bytes <= 12_288, "{bytes} bytes of stack");
                exchanges = bytes.max(exchanges);
            }
            ("points", &[bytes]) => {
                assert!(bytes <= 34_816, "{bytes} bytes of stack");
                points = bytes.max(points);
            }
            ("quote", &[bytes]) => {
                assert!(bytes <= 17_408, "{bytes} bytes of stack");
                quotes = bytes.max(quotes);
            }
            _ => panic!("{line}"),
        }
    }
    println!(
        "the most bytes of stack: the station's by degree {most:?}, in binary64 {binary64}, a B-spline's {splines}, \
        the tightest band's {tightest}, an exchange {exchanges}, judging points {points}, a quote {quotes}"
    );
    // Some outline of each degree is walked: a refusal before the walk takes less than 300 bytes.
    assert!(
        most.iter()
            .chain([&binary64, &splines, &tightest, &exchanges, &points, &quotes])
            .all(|bytes| *bytes > 1_024),
        "{most:?} {binary64} {splines} {tightest} {exchanges} {points} {quotes}"
    );
}

#[test]
fn the_example_in_the_header_compiles_and_runs() {
    let header = fs::read_to_string(c::root().join("include/contour_band.h")).expect("the header is there");
    let program: String = header
        .lines()
        .skip_while(|line| !line.ends_with("#include \"contour_band.h\""))
        .take_while(|line| !line.starts_with(" * Ownership"))
        .map(|line| line.strip_prefix(" *").unwrap_or(line).to_owned() + "\n")
        .collect();
    let source = PathBuf::from(env!("CARGO_TARGET_TMPDIR")).join("header_example.c");
    fs::write(&source, program).expect("the program is written");
    assert_eq!(printed(&source, "header_example"), "leaves 1, on, vertices 4\n");
}
