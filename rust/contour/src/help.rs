//! The texts of help.

/// How the command is called.
pub const USAGE: &str = "\
usage: contour band OUTLINE [OPTIONS]
       contour inspect OUTLINE POINTS [OPTIONS]
       contour foretell OUTLINE [OPTIONS]
       contour quote OUTLINE [OPTIONS]
       contour tightest OUTLINE --leaves R [OPTIONS]";

/// `contour --help`.
pub const WHOLE: &str = "\
contour puts a narrow band of straight pieces round an outline and judges
measured points on the band or off it, by an engine that is proved right: a
point of the outline is never off, and a point that is on lies no farther from
the outline than the tolerance.

usage: contour band OUTLINE [OPTIONS]
       contour inspect OUTLINE POINTS [OPTIONS]
       contour foretell OUTLINE [OPTIONS]
       contour quote OUTLINE [OPTIONS]
       contour tightest OUTLINE --leaves R [OPTIONS]

COMMANDS
  band      bands the outline and prints its leaves
  inspect   bands the outline and judges the points of a file
  foretell  prints how many leaves the outline has at most, without banding it
  quote     bands the outline and prints what its leaves cost
  tightest  finds the least tolerance at which there are so many leaves at most
  contour COMMAND --help says more of one.

OPTIONS
  --tolerance T  the greatest diagonal of a box, 2 to 1048576 sixteenths of a
                 stage unit; it goes before the file's own
  --pieces M     how many straight pieces a leaf has, 1 to 8; curves of degree
                 4 and 5 take 3 to 8. 3 unless it is given
  --leaves R     of tightest: how many leaves are taken
  --binary64     reads the numbers of curves as binary64, which may have a
                 decimal point and must be whole, as in 30.0
  --svg FILE     draws the band, and the points, as a picture for browsers
  --boxes        with --svg: also draws the boxes at the break points
  --help         prints a text like this one
  --version      prints the version

FILES
  - is standard input. Lines end in a line feed, or in a carriage return and a
  line feed; spaces are single, as shown. Numbers are whole and decimal, of 32
  bits, with no leading zero and no plus.

  OUTLINE has a tolerance in sixteenths of a stage unit on its first line, which
  may be left out where --tolerance is given, and in tightest. Then it has
  curves, by their control points in stage units, 2 for a line and up to 6 for
  degree 5; each begins where the one before it ends:

    (tolerance 44)
    (curve (0 0) (10 30) (20 30) (30 0))
    (curve (30 0) (0 0))

  or one uniform cubic B-spline, by its 4 to 4099 points, which is closed where
  its first three points stand again at its end:

    (tolerance 9)
    (spline (0 0) (10 30) (20 30) (30 0))

  POINTS has a measured point on each line, in sixteenths of a stage unit:

    (point (240 363))

EXIT STATUS
  0  done; in inspect, every point is on
  1  in inspect, a point is off, and none is refused; in tightest, no tolerance
     has so few leaves
  2  something is refused or failed, which standard error says with the file
     and the line, and nothing is printed; or, in inspect, a point is refused,
     which stands with the other points

EXAMPLES
  contour band examples/outline.txt --svg outline.svg
  contour inspect examples/outline.txt examples/points.txt
  contour foretell - --tolerance 16 < examples/outline.txt
  contour tightest examples/outline.txt --leaves 4
  contour quote examples/outline.txt --tolerance 8
";

/// `contour band --help`.
pub const BAND: &str = "\
usage: contour band OUTLINE [--tolerance T] [--pieces M] [--svg FILE [--boxes]]

Bands an outline. It prints

  tolerance T: curves C, leaves L, nodes N

and a line for each leaf: the number of its curve, from 0, its node, and its
M + 1 boxes, each x low, x high, y low, y high in sixteenths of a stage unit.
Node 1 is a whole curve, and node n has the halves 2n and 2n + 1.

  curve 0 node 1 (0 0 0 38) (160 160 319 363) (320 320 319 363) (480 480 0 38)

contour --help tells the options and the forms of a file.
";

/// `contour inspect --help`.
pub const INSPECT: &str = "\
usage: contour inspect OUTLINE POINTS [--tolerance T] [--pieces M]
                                      [--svg FILE [--boxes]]

Bands an outline and judges the points of a file. It prints what contour band
prints, then a line for each point and their counts:

  (240 363) on, record 0 cover 1
  (240 364) off
  points 2: on 1, off 1, refused 0

A point that is on has the first leaf that holds it and the lowest cover in it,
both from 0. A point is refused where it is beyond 536870912 on either side.
The exit status is 0 where every point is on, 1 where one is off, and 2 where
one is refused.

contour --help tells the options and the forms of a file.
";

/// `contour foretell --help`.
pub const FORETELL: &str = "\
usage: contour foretell OUTLINE [--tolerance T] [--pieces M]
                                [--svg FILE [--boxes]]

Foretells how many leaves and nodes banding can count, without banding. It
prints a line for each curve and one for all:

  curve 0: depth 1, leaves at most 2
  tolerance 43: leaves at most 2, nodes at most 3

A curve without a depth may have any number of leaves, up to 256, or be
refused; then nothing is foretold. A spline is not foretold. With --svg the
outline is banded after all, for the picture.

contour --help tells the options and the forms of a file.
";

/// `contour quote --help`.
pub const QUOTE: &str = "\
usage: contour quote OUTLINE [--tolerance T] [--pieces M] [--svg FILE [--boxes]]

Bands an outline and says what its leaves cost. It prints

  tolerance T: curves C, leaves L, nodes N
  quote 3.94

Each curve costs 1.40 with two leaves included, and each further leaf of it
0.35. One eighth of the sum is added, and the total is rounded to the cent, half
a cent upwards.

contour --help tells the options and the forms of a file.
";

/// `contour tightest --help`.
pub const TIGHTEST: &str = "\
usage: contour tightest OUTLINE --leaves R [--pieces M] [--svg FILE [--boxes]]

Finds the least tolerance at which the outline has at most R leaves, and prints

  tolerance T: curves C, leaves L, nodes N

At every larger tolerance there are no more leaves. Where there are more than R
at every tolerance it says so, and the exit status is 1. The tolerance of the
file is not looked at. A spline is not taken. The bench station takes 128.

contour --help tells the options and the forms of a file.
";

/// `contour --version`.
pub fn version() -> String {
    let engine = contour_band::version();
    let parts = [engine / 10_000, engine / 100 % 100, engine % 100].map(|part| part.to_string());
    format!("contour {}, engine {}", env!("CARGO_PKG_VERSION"), parts.join("."))
}
