//! The lines of a file and their forms, which are those of the text program but for two liberties: a line may end in a
//! carriage return and a line feed, and the last line needs no end. `examples/inspect.c` reads the same.

/// x and y of a point.
pub type Point = [i32; 2];

/// The lines of a text, without their ends.
pub fn lines(text: &[u8]) -> impl Iterator<Item = &[u8]> {
    text.split_inclusive(|&byte| byte == b'\n').map(|line| match line {
        [line @ .., b'\r', b'\n'] | [line @ .., b'\n'] => line,
        line => line,
    })
}

/// The number of a line `(tolerance T)`.
pub fn tolerance(line: &[u8]) -> Option<i32> {
    match number(line.strip_prefix(b"(tolerance ")?)? {
        (tolerance, b")") => Some(tolerance),
        _ => None,
    }
}

/// The points of a line `(word (x y) (x y) ..)`, at least one.
pub fn points(line: &[u8], word: &str) -> Option<Vec<Point>> {
    points_by(line, word, number)
}

/// The points of such a line whose numbers may have a decimal point, each as the nearest binary64 number.
pub fn decimal_points(line: &[u8], word: &str) -> Option<Vec<[f64; 2]>> {
    points_by(line, word, decimal)
}

/// The number at the front of a text, and what follows it.
type Front<'a, T> = Option<(T, &'a [u8])>;

fn points_by<T>(line: &[u8], word: &str, number: fn(&[u8]) -> Front<T>) -> Option<Vec<[T; 2]>> {
    let mut rest = line.strip_prefix(b"(")?.strip_prefix(word.as_bytes())?;
    let mut points = Vec::new();
    while rest != b")" {
        let (x, after) = number(rest.strip_prefix(b" (")?)?;
        let (y, after) = number(after.strip_prefix(b" ")?)?;
        points.push([x, y]);
        rest = after.strip_prefix(b")")?;
    }
    (!points.is_empty()).then_some(points)
}

/// The number at the front of a text, which may have a decimal point with digits on both sides, and what follows it. It has
/// no plus and no leading zero; without a point it is not -0.
fn decimal(text: &[u8]) -> Front<'_, f64> {
    let count = text.iter().take_while(|byte| byte.is_ascii_digit() || b"-.".contains(byte)).count();
    let (number, rest) = text.split_at(count);
    let number = std::str::from_utf8(number).ok()?;
    let (whole, part) = number.split_once('.').unwrap_or((number, "0"));
    let digits = whole.strip_prefix('-').unwrap_or(whole);
    let is_digits = |text: &str| !text.is_empty() && text.bytes().all(|byte| byte.is_ascii_digit());
    let fine =
        is_digits(digits) && is_digits(part) && (digits == "0" || !digits.starts_with('0')) && number != "-0";
    Some((number.parse().ok().filter(|_| fine)?, rest))
}

/// The 32-bit number at the front of a text, and what follows it. A number has no plus, no leading zero, and is not −0.
fn number(text: &[u8]) -> Front<'_, i32> {
    let digits = text.strip_prefix(b"-").unwrap_or(text);
    let count = digits.iter().take_while(|byte| byte.is_ascii_digit()).count();
    if digits.starts_with(b"0") && (count > 1 || digits.len() < text.len()) {
        return None;
    }
    let (number, rest) = text.split_at(text.len() - digits.len() + count);
    Some((std::str::from_utf8(number).ok()?.parse().ok()?, rest))
}

/// A 32-bit number by itself, as it may stand in a line.
pub fn whole_number(text: &str) -> Option<i32> {
    match number(text.as_bytes())? {
        (number, b"") => Some(number),
        _ => None,
    }
}

#[cfg(test)]
mod tests {
    use super::*;

    #[test]
    fn numbers_have_one_form() {
        for (text, value) in [("0", 0), ("7", 7), ("-7", -7), ("10", 10), ("-2147483648", i32::MIN)] {
            assert_eq!(whole_number(text), Some(value));
        }
        for text in ["", "-", "+1", "00", "01", "-0", "-01", "2147483648", "1 ", " 1", "1.0", "x", "1x"] {
            assert_eq!(whole_number(text), None, "{text}");
        }
    }

    #[test]
    fn decimals_have_digits_on_both_sides_of_a_point() {
        for (text, value) in
            [("0", 0.0), ("-7.0", -7.0), ("10.250", 10.25), ("-0.0", 0.0), ("123456789012", 123456789012.0)]
        {
            assert_eq!(decimal(text.as_bytes()), Some((value, &b""[..])), "{text}");
        }
        for text in ["", "-", "-0", "1.", ".5", "01.0", "1.0.0", "1-0", "--1", "+1.0", "1e3", "nan", "inf"] {
            assert!(!decimal(text.as_bytes()).is_some_and(|(_, rest)| rest.is_empty()), "{text}");
        }
    }

    #[test]
    fn lines_end_in_a_line_feed_or_with_the_text() {
        let lines: Vec<&[u8]> = lines(b"a\nb\r\n\nc\r\r\nd\r").collect();
        assert_eq!(lines, [&b"a"[..], b"b", b"", b"c\r", b"d\r"]);
        assert_eq!(super::lines(b"").count(), 0);
    }

    #[test]
    fn a_form_is_a_whole_line() {
        assert_eq!(points(b"(curve (0 0) (10 -30))", "curve"), Some(vec![[0, 0], [10, -30]]));
        for line in
            ["(curve)", "(curve )", "(curve(0 0))", "(curve (0 0)) ", "(curve (0  0))", "(curve (0 0 ))"]
        {
            assert_eq!(points(line.as_bytes(), "curve"), None, "{line}");
        }
        assert_eq!(tolerance(b"(tolerance 44)"), Some(44));
        assert_eq!(tolerance(b"(tolerance 44) "), None);
    }
}
