//! The forms of a line of the text program: a tolerance, a curve, a point.

/// What a line says.
#[derive(Debug, Clone, PartialEq, Eq)]
pub enum Form {
    /// `(tolerance 44)`
    Tolerance(i32),
    /// `(curve (0 0) (10 30) (20 30) (30 0))`, with two to four points.
    Curve(Vec<[i32; 2]>),
    /// `(point (240 363))`
    Point(i32, i32),
}

/// How many points a curve line may have.
const POINTS: std::ops::RangeInclusive<usize> = 2..=4;

/// The form of a line, which is given without its byte 10.
pub fn form(line: &[u8]) -> Option<Form> {
    // Every byte of a form is below 128, so a line that is no UTF-8 is none.
    let line = std::str::from_utf8(line).ok()?;
    let inside = line.strip_prefix('(')?.strip_suffix(')')?;
    let (word, rest) = inside.split_once(' ')?;
    match word {
        "tolerance" => number(rest).map(Form::Tolerance),
        "curve" => pairs(rest).filter(|points| POINTS.contains(&points.len())).map(Form::Curve),
        "point" => match pairs(rest)?[..] {
            [[x, y]] => Some(Form::Point(x, y)),
            _ => None,
        },
        _ => None,
    }
}

/// One pair or more, as in `(0 0) (10 30)`.
fn pairs(text: &str) -> Option<Vec<[i32; 2]>> {
    text.strip_prefix('(')?.strip_suffix(')')?.split(") (").map(pair).collect()
}

/// Two numbers and a space.
fn pair(text: &str) -> Option<[i32; 2]> {
    let (x, y) = text.split_once(' ')?;
    Some([number(x)?, number(y)?])
}

/// A number of 32 bits, where the text is the way in which it is written: no leading zero, no −0, no plus.
fn number(text: &str) -> Option<i32> {
    text.parse().ok().filter(|n: &i32| n.to_string() == text)
}

#[cfg(test)]
mod tests {
    use super::*;

    fn is_form(line: &str) -> bool {
        form(line.as_bytes()).is_some()
    }

    #[test]
    fn the_lines_of_the_listing() {
        assert_eq!(form(b"(tolerance 44)"), Some(Form::Tolerance(44)));
        assert_eq!(
            form(b"(curve (0 0) (10 30) (20 30) (30 0))"),
            Some(Form::Curve(vec![[0, 0], [10, 30], [20, 30], [30, 0]]))
        );
        assert_eq!(form(b"(point (240 363))"), Some(Form::Point(240, 363)));
    }

    #[test]
    fn numbers_have_one_way_to_be_written() {
        for n in [i32::MIN, i32::MIN + 1, -10, -1, 0, 1, 9, 10, i32::MAX] {
            assert_eq!(number(&n.to_string()), Some(n));
        }
        #[rustfmt::skip]
        let not_numbers = [
            "", "-", "+", "+1", "-0", "00", "01", "-01", "--1", "1-", "1+", " 1", "1 ", "1_0", "1,0", "1.0",
            "1e3", "0x1", "a", "\u{2212}1", "\u{661}", "2147483648", "-2147483649", "99999999999999999999",
            "1\0",
        ];
        for text in not_numbers {
            assert_eq!(number(text), None, "{text:?}");
        }
        for digit in ["0", "1", "9"] {
            assert_eq!(number(&digit.repeat(5_000)), None);
        }
    }

    #[test]
    fn a_curve_has_two_to_four_points() {
        for points in 0..8 {
            let line = format!("(curve{})", " (1 -2)".repeat(points));
            assert_eq!(is_form(&line), (2..=4).contains(&points), "{line}");
        }
    }

    #[test]
    fn a_point_line_has_one_point() {
        for points in 0..4 {
            let line = format!("(point{})", " (1 -2)".repeat(points));
            assert_eq!(is_form(&line), points == 1, "{line}");
        }
    }

    #[test]
    fn no_byte_of_a_form_can_be_missed_or_doubled() {
        // Digits aside: without one, or with one more, there may be another number.
        for line in ["(tolerance -44)", "(curve (0 0) (10 -30) (20 30))", "(point (240 363))"] {
            assert!(is_form(line));
            for (i, c) in line.char_indices().filter(|(_, c)| !c.is_ascii_digit()) {
                let (before, after) = (&line[..i], &line[i + 1..]);
                if c != '-' {
                    assert!(!is_form(&format!("{before}{after}")), "{line} without byte {i}");
                }
                assert!(!is_form(&format!("{before}{c}{c}{after}")), "{line} with byte {i} twice");
            }
        }
    }

    #[test]
    fn no_other_byte_can_stand_before_within_or_after_a_form() {
        for line in ["(tolerance 44)", "(curve (0 0) (10 30) (20 30))", "(point (240 363))"] {
            for at in 0..=line.len() {
                for byte in (0..=255).filter(|b: &u8| !b.is_ascii_digit() && *b != b'-') {
                    let mut bytes = line.as_bytes().to_vec();
                    bytes.insert(at, byte);
                    assert_eq!(form(&bytes), None, "{}", bytes.escape_ascii());
                }
            }
        }
    }

    #[test]
    fn words_are_in_small_letters_and_whole() {
        for line in [
            "(Tolerance 44)",
            "(TOLERANCE 44)",
            "(tol 44)",
            "(tolerances 44)",
            "(44)",
            "tolerance 44",
            "",
            "()",
        ] {
            assert!(!is_form(line), "{line}");
        }
    }
}
