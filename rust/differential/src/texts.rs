//! Random texts for the text program: whole ones, and ways to damage them.

use crate::curves::curves;
use crate::outlines::{outline, tolerance};
use crate::random::Random;
use std::ops::Range;

/// The listing of document 01.
pub const LISTING: &[u8] = b"\
(tolerance 44)
(curve (0 0) (10 30) (20 30) (30 0))
(point (240 363))
(point (240 364))
";

/// The largest coordinate of a point that is not refused.
const FARTHEST: i32 = 536_870_912;

/// The size of the longest text.
const LONGEST: usize = 16_384;

/// Bytes that stand in a text, or that a reader could mistake for one of those.
const TELLING: &[u8] = b"()- 0123456789toleranceurvpi+\t\n\r\0.,;_\x0b\x0c\x7f\x80\xa8\xad\xff";

/// What is no number, or none of 32 bits.
#[rustfmt::skip]
const NOT_NUMBERS: &[&str] = &[
    "", "-", "+", "-0", "+0", "+7", "00", "01", "-01", "007", "--7", "7-", "1.5", "1e3", "0x10", "1_000",
    "1,000", "\u{2212}7", "2147483648", "-2147483649", "4294967296", "4294967297", "-4294967295",
    "9999999999", "18446744073709551616", "18446744073709551660", "100000000000000000000000000000000000000",
];

/// Numbers about the ends of every range.
#[rustfmt::skip]
const NUMBERS: &[i32] = &[
    i32::MIN, i32::MIN + 1, -FARTHEST - 1, -FARTHEST, -1_048_577, -1_048_576, -1, 0, 1, 2, 3, 9, 10,
    1_048_576, 1_048_577, FARTHEST, FARTHEST + 1, i32::MAX - 1, i32::MAX,
];

/// Lines that are no forms.
#[rustfmt::skip]
const NOT_FORMS: &[&str] = &[
    "", " ", "\r", "()", "(tolerance)", "(tolerance )", "(tolerance 44) ", "(curve)", "(curve (0 0))",
    "(curve (0 0) (1 1) (2 2) (3 3) (4 4))", "(curve (0 0) (1 1) (2 2) (3 3) (4 4) (5 5))",
    "(curve (0 0)(1 1))", "(curve  (0 0) (1 1))", "(curve (0 0) (1 1)",
    "(point)", "(point (0 0)))", "(point (0 0) (1 1))", "(point (0))",
    "(point (0 0 0))", "(point 0 0)", "(Point (0 0))", "(done 1 1 1)", "; nothing",
];

/// Lines that are forms, each for its own place.
const FORMS: &[&str] = &["(tolerance 44)", "(tolerance 1)", "(curve (0 0) (1 1))", "(point (0 0))"];

/// A text that no check of its size and lines refuses.
pub fn text(random: &mut Random) -> Vec<u8> {
    // The degrees that a curve line can have.
    let outline = outline(random, 1..=3);
    let mut text = format!("(tolerance {})\n", tolerance(random)).into_bytes();
    let mut rest = &outline[..];
    while let [degree, numbers @ ..] = rest {
        let (points, after) = numbers.split_at(2 * (*degree as usize + 1));
        text.extend(curve_line(points).bytes());
        rest = after;
    }
    let count = if random.one_in(50) { random.below(300) } else { random.below(9) };
    for _ in 0..count {
        let (x, y) = point(random, &outline);
        text.extend(format!("(point ({x} {y}))\n").bytes());
    }
    text
}

fn curve_line(points: &[i32]) -> String {
    let pairs: String = points.chunks_exact(2).map(|pair| format!(" ({} {})", pair[0], pair[1])).collect();
    format!("(curve{pairs})\n")
}

/// A point on a curve of the outline, more or less near one, or about the ends of the range.
fn point(random: &mut Random, outline: &[i32]) -> (i32, i32) {
    if random.one_in(8) {
        let ends = [FARTHEST, FARTHEST + 1, -FARTHEST, -FARTHEST - 1, i32::MIN, i32::MAX, 0];
        return (random.pick(&ends), random.pick(&ends));
    }
    let curve = random.pick(&curves(outline));
    let parts = i128::from(random.between(1, 8));
    let at = random.below(parts as usize + 1) as i128;
    let scale = parts.pow(curve.degree());
    let [x, y] = curve.sixteenths(at, parts).map(|z| z.div_euclid(scale) as i32);
    let reach = if random.one_in(3) { 0 } else { random.magnitude().min(1 << random.below(21)) };
    (x + random.between(-reach, reach), y + random.between(-reach, reach))
}

/// Damages a text in one to three places. What results may still be answered in full.
pub fn damage(random: &mut Random, text: &mut Vec<u8>) {
    for _ in 0..random.between(1, 3) {
        match random.below(7) {
            0 => damage_a_byte(random, text),
            1 => damage_a_number(random, text),
            2 => damage_a_line(random, text),
            3 => damage_an_end(random, text),
            _ => alter_once(random, text),
        }
    }
}

/// Alters a text in one to three places. Every line that was a form stays one; numbers, order, size and counts
/// may be at fault.
pub fn alter(random: &mut Random, text: &mut Vec<u8>) {
    for _ in 0..random.between(1, 3) {
        alter_once(random, text);
    }
}

fn alter_once(random: &mut Random, text: &mut Vec<u8>) {
    match random.below(4) {
        0 => {
            let number = if random.one_in(8) { random.bits() as i32 } else { random.pick(NUMBERS) };
            exchange_a_number(random, text, &number.to_string());
        }
        1 => move_a_line(random, text),
        _ => alter_the_counts(random, text),
    }
}

/// Another byte, a byte more or a byte less.
fn damage_a_byte(random: &mut Random, text: &mut Vec<u8>) {
    let byte = if random.one_in(4) { random.bits() as u8 } else { random.pick(TELLING) };
    let at = random.below(text.len() + 1);
    if at == text.len() {
        return text.push(byte);
    }
    match random.below(5) {
        0 => text.insert(at, byte),
        1 => text.insert(at, text[at]),
        2 => drop(text.remove(at)),
        3 => text[at] ^= 1 << random.below(8),
        _ => text[at] = byte,
    }
}

/// A wrongly written number, or one of thousands of digits.
fn damage_a_number(random: &mut Random, text: &mut Vec<u8>) {
    let new = match random.below(8) {
        0 => random.pick(&["0", "1", "9"]).repeat(random.below(6_000)),
        1 => format!("0{}", random.between(0, 99)),
        _ => random.pick(NOT_NUMBERS).to_string(),
    };
    exchange_a_number(random, text, &new);
}

/// A line cut, with its end or without, or joined with the next, or one more that is no form.
fn damage_a_line(random: &mut Random, text: &mut Vec<u8>) {
    let Some(line) = some_line(random, text) else { return };
    let cut = line.start + random.below(line.len());
    match random.below(4) {
        0 => drop(text.drain(cut..line.end - 1)),
        1 => drop(text.drain(cut..line.end)),
        2 => drop(text.drain(line.end - 1..line.end)),
        _ => insert(text, line.start, format!("{}\n", random.pick(NOT_FORMS)).as_bytes()),
    }
}

/// The text cut, its last byte 10 left out, other ends of line, another byte for a space, nothing.
fn damage_an_end(random: &mut Random, text: &mut Vec<u8>) {
    match random.below(6) {
        0 => text.truncate(random.below(text.len() + 1)),
        1 => drop(text.pop()),
        2 => *text = text.iter().flat_map(|&b| if b == b'\n' { vec![b'\r', b] } else { vec![b] }).collect(),
        3 if random.one_in(4) => text.clear(),
        _ => {
            let new = random.pick(&[&b"  "[..], b"\t", b"", b"\r", b"\0", b"\xc2\xa0"]);
            replace_once(random, text, b' ', new);
        }
    }
}

/// A line twice, left out, moved, or one more that is a form.
fn move_a_line(random: &mut Random, text: &mut Vec<u8>) {
    let Some(line) = some_line(random, text) else { return };
    match random.below(4) {
        0 => {
            let copy = text[line.clone()].to_vec();
            insert(text, line.end, &copy);
        }
        1 => drop(text.drain(line)),
        2 => {
            let moved: Vec<u8> = text.drain(line).collect();
            let at = some_line(random, text).map_or(0, |next| next.start);
            insert(text, at, &moved);
        }
        _ => insert(text, line.start, format!("{}\n", random.pick(FORMS)).as_bytes()),
    }
}

/// About 64 curves, about 910 leaves, about the longest size, or no curves.
fn alter_the_counts(random: &mut Random, text: &mut Vec<u8>) {
    let first = lines(text).first().map_or(0, |first| first.end);
    match random.below(4) {
        0 => {
            let curves = random.pick(&[58, 61, 62, 63, 64, 65, 70]);
            let (x, y) = first_point(text);
            insert(text, first, format!("(curve ({x} {y}) ({x} {y}))\n").repeat(curves).as_bytes());
        }
        1 => {
            // At tolerance 3 these have 256, 128 and 8 leaves.
            let (x, y) = first_point(text);
            let towards = if y > 0 { -1 } else { 1 };
            let [many, more, some] = [65_536, 16_384, 64]
                .map(|height| format!("(curve ({x} {y}) ({x} {}) ({x} {y}))\n", y + towards * height));
            let curves = format!("{}{}{}", many.repeat(3), more, some.repeat(random.below(4)));
            text.splice(..first, format!("(tolerance 3)\n{curves}").into_bytes());
        }
        2 => fill(text, LONGEST + random.below(3) - 1),
        _ => {
            let kept = lines(text).into_iter().map(|line| text[line].to_vec());
            *text = kept.filter(|line| !line.starts_with(b"(curve")).flatten().collect();
        }
    }
}

/// The first point of the first curve, where there is one; else any.
fn first_point(text: &[u8]) -> (i32, i32) {
    let text = String::from_utf8_lossy(text);
    let point = text.lines().find_map(|line| line.strip_prefix("(curve (")?.split_once(')'));
    let numbers = point.and_then(|(point, _)| point.split_once(' '));
    let read = |(x, y): (&str, &str)| Some((x.parse().ok()?, y.parse().ok()?));
    numbers.and_then(read).unwrap_or((0, 0))
}

/// Puts something else for one of the numbers.
fn exchange_a_number(random: &mut Random, text: &mut Vec<u8>, new: &str) {
    let numbers = ranges(text, |byte| byte.is_ascii_digit() || byte == b'-');
    if !numbers.is_empty() {
        // The tolerance is the first of many.
        let at = if random.one_in(8) { 0 } else { random.below(numbers.len()) };
        text.splice(numbers[at].clone(), new.bytes());
    }
}

/// One of the lines, with its byte 10.
fn some_line(random: &mut Random, text: &[u8]) -> Option<Range<usize>> {
    let lines = lines(text);
    (!lines.is_empty()).then(|| lines[random.below(lines.len())].clone())
}

fn insert(text: &mut Vec<u8>, at: usize, new: &[u8]) {
    text.splice(at..at, new.iter().copied());
}

/// Puts other bytes for one of the bytes of a kind.
fn replace_once(random: &mut Random, text: &mut Vec<u8>, byte: u8, new: &[u8]) {
    let places: Vec<usize> = (0..text.len()).filter(|&i| text[i] == byte).collect();
    if !places.is_empty() {
        let at = random.pick(&places);
        text.splice(at..=at, new.iter().copied());
    }
}

/// Adds point lines until the text has a size, as long as it is below it.
fn fill(text: &mut Vec<u8>, size: usize) {
    const SHORTEST: usize = "(point (0 0))\n".len();
    while text.len() + SHORTEST <= size {
        // The last line takes what the lines before it leave, in numbers of up to ten digits.
        let left = size - text.len();
        let more = if left < 2 * SHORTEST { left - SHORTEST } else { 0 };
        let [x, y] = [more.min(9), more - more.min(9)].map(|zeros| 10_i32.pow(zeros as u32));
        text.extend(format!("(point ({x} {y}))\n").bytes());
    }
}

/// The ranges of the longest runs of bytes of a kind.
fn ranges(text: &[u8], kind: impl Fn(u8) -> bool) -> Vec<Range<usize>> {
    let mut found = Vec::new();
    let mut start = 0;
    for run in text.split(|&byte| !kind(byte)) {
        if !run.is_empty() {
            found.push(start..start + run.len());
        }
        start += run.len() + 1;
    }
    found
}

/// The ranges of the lines, each with its byte 10.
fn lines(text: &[u8]) -> Vec<Range<usize>> {
    let mut start = 0;
    let line = |line: &[u8]| {
        start += line.len();
        start - line.len()..start
    };
    text.split_inclusive(|&byte| byte == b'\n').map(line).collect()
}

#[cfg(test)]
mod tests {
    use super::*;

    #[test]
    fn whole_texts_pass_the_checks() {
        let mut random = Random::new(6);
        for _ in 0..2_000 {
            let text = text(&mut random);
            let answer = plain::text::answer(&text);
            let banded =
                [&b"(leaf"[..], b"(refused 7", b"(refused 8"].iter().any(|start| answer.starts_with(start));
            assert!(banded, "{}", text.escape_ascii());
        }
    }

    #[test]
    fn a_text_is_filled_to_its_size() {
        for size in 200..300 {
            let mut text = LISTING.to_vec();
            fill(&mut text, size);
            assert_eq!(text.len(), size);
            assert!(plain::text::answer(&text).starts_with(b"(leaf"));
        }
    }

    #[test]
    fn lines_and_numbers_are_found() {
        assert_eq!(lines(b"ab\n\nc"), [0..3, 3..4, 4..5]);
        assert_eq!(ranges(b"(-12 3)4", |b| b.is_ascii_digit() || b == b'-'), [1..4, 5..6, 7..8]);
    }
}
