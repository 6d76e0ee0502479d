//! Numbers in binary64 (request 10), by their bits: the curves of an outline in binary64, and boxes in stage units.

use crate::curve::Curve;
use crate::degree::check_degree;
use crate::hull::first_bad;
use crate::outline::{COORDINATES, MOST_CURVES};
use crate::refusal::Refusal;

/// A number has 52 digits behind a first one, which is 1 and not written, unless the exponent is the least.
const DIGITS: u32 = 52;

/// What is written as an exponent of 0.
const ZERO_EXPONENT: i64 = 1_023;

/// What is written as the exponent of an infinity and of what is not a number.
const ENDLESS: i64 = 2_047;

/// What an f64 is.
#[derive(Debug, Clone, Copy, PartialEq, Eq)]
enum Value {
    /// A whole number of 32 bits; a zero of either sign is 0.
    Whole(i32),
    /// A whole number of more bits.
    Far,
    /// No whole number.
    Other,
}

/// What an f64 is, by its sign, its exponent and its digits.
fn value(number: f64) -> Value {
    let bits = number.to_bits();
    let written = (bits >> DIGITS & 0x7ff) as i64;
    if bits << 1 == 0 {
        return Value::Whole(0);
    }
    if written == ENDLESS || written < ZERO_EXPONENT {
        // Endless, no number, or above 0 and below 1 in size.
        return Value::Other;
    }
    let exponent = (written - ZERO_EXPONENT) as u32;
    if exponent >= DIGITS {
        return Value::Far;
    }
    let behind = DIGITS - exponent;
    let digits = bits & ((1 << DIGITS) - 1) | 1 << DIGITS;
    if digits.trailing_zeros() < behind {
        return Value::Other;
    }
    let size = (digits >> behind) as i64;
    let signed = if bits >> 63 == 1 { -size } else { size };
    i32::try_from(signed).map_or(Value::Far, Value::Whole)
}

/// The coordinate that stands at an index. Check 21, then check 4.
fn coordinate(number: f64, index: usize) -> Result<i32, Refusal> {
    match value(number) {
        Value::Other => Err(Refusal::NotWhole { index }),
        Value::Whole(whole) if COORDINATES.contains(&whole) => Ok(whole),
        Value::Whole(_) | Value::Far => Err(Refusal::Coordinate { index }),
    }
}

/// The degree that stands at an index. Check 2, then check 20.
fn degree(number: f64, m: u32, index: usize) -> Result<usize, Refusal> {
    match value(number) {
        Value::Whole(whole) => check_degree(whole, m, index),
        Value::Far | Value::Other => Err(Refusal::Degree { index }),
    }
}

/// The curves of an outline in binary64, for m pieces, after checks 6 and, curve by curve, 5, 2, 20, 3, then 21 and 4 of
/// each coordinate in turn, and 17.
pub fn curves(outline: &[f64], m: u32) -> Result<Vec<Curve>, Refusal> {
    if outline.is_empty() {
        return Err(Refusal::EmptyOutline);
    }
    let mut curves = Vec::new();
    let mut end: Option<[i32; 2]> = None;
    let mut index = 0;
    while index < outline.len() {
        if curves.len() == MOST_CURVES {
            return Err(Refusal::TooManyCurves { index });
        }
        let degree = degree(outline[index], m, index)?;
        let (first, next) = (index + 1, index + 3 + 2 * degree);
        let numbers = outline.get(first..next).ok_or(Refusal::CutShort { length: outline.len() })?;
        let points: Vec<i32> = (first..)
            .zip(numbers)
            .map(|(index, &number)| coordinate(number, index))
            .collect::<Result<_, _>>()?;
        if end.is_some_and(|end| end != points[..2]) {
            return Err(Refusal::Gap { index });
        }
        end = Some([points[2 * degree], points[2 * degree + 1]]);
        curves.push(Curve::new(degree, &points));
        index = next;
    }
    Ok(curves)
}

/// n over 2^power in binary64, written out: its sign, its exponent, and its digits behind the first.
fn over_power(n: i64, power: u32) -> f64 {
    if n == 0 {
        return 0.0;
    }
    let size = n.unsigned_abs();
    let exponent = size.ilog2();
    assert!(exponent <= DIGITS, "a number has no more digits than binary64 has");
    let sign = u64::from(n < 0) << 63;
    let written = (ZERO_EXPONENT + i64::from(exponent) - i64::from(power)) as u64;
    let digits = size << (DIGITS - exponent) & ((1 << DIGITS) - 1);
    f64::from_bits(sign | written << DIGITS | digits)
}

/// Check 12 of one box.
fn check_box(numbers: [i32; 4]) -> Result<(), Refusal> {
    first_bad(numbers).map_or(Ok(()), |place| Err(Refusal::BoxNumber { place }))
}

/// A box in stage units: x low, x high, y low, y high, each the sixteenth over 16.
pub fn box_units(numbers: [i32; 4]) -> Result<[f64; 4], Refusal> {
    check_box(numbers)?;
    Ok(numbers.map(|n| over_power(n.into(), 4)))
}

/// A box in the short form, in stage units.
#[derive(Debug, Clone, Copy, PartialEq)]
pub enum Short {
    /// x and y of a box that is a single point.
    Point([f64; 2]),
    /// x and y of the middle, and half of the width and of the height.
    Middle([f64; 2], [f64; 2]),
}

/// The short form of a box: a middle is (low + high) / 2 sixteenths, a half width (high − low) / 2.
pub fn box_short(numbers: [i32; 4]) -> Result<Short, Refusal> {
    check_box(numbers)?;
    let [x_low, x_high, y_low, y_high] = numbers.map(i64::from);
    if (x_low, y_low) == (x_high, y_high) {
        return Ok(Short::Point([x_low, y_low].map(|n| over_power(n, 4))));
    }
    let middle = [x_low + x_high, y_low + y_high];
    let widths = [x_high - x_low, y_high - y_low];
    Ok(Short::Middle(middle.map(|n| over_power(n, 5)), widths.map(|n| over_power(n, 5))))
}

#[cfg(test)]
mod tests {
    use super::*;

    const FAR: i32 = 536_870_912;

    #[test]
    fn an_f64_is_read_as_what_it_is() {
        for whole in [0, 1, -1, 2, 5, -6, 7, 1_048_576, -1_048_577, i32::MAX, i32::MIN] {
            let number = f64::from(whole);
            assert_eq!(value(number), Value::Whole(whole));
            let bits = number.to_bits();
            if whole != 0 {
                assert_eq!(value(f64::from_bits(bits + 1)), Value::Other);
                assert_eq!(value(f64::from_bits(bits - 1)), Value::Other);
            }
        }
        assert_eq!(value(-0.0), Value::Whole(0));
        let far = [2f64.powi(31), -2f64.powi(31) - 1.0, 2f64.powi(52), 2f64.powi(53) + 2.0, -1e300, f64::MAX];
        for number in far {
            assert_eq!(value(number), Value::Far);
        }
        let tiny = [f64::from_bits(1), f64::MIN_POSITIVE, -f64::from_bits((1 << 52) - 1)];
        let halves = [0.5, -2.5, 2_000_000.5, 2f64.powi(51) + 0.5, 2f64.powi(52) - 0.5, 0.1];
        for number in tiny.into_iter().chain(halves) {
            assert_eq!(value(number), Value::Other);
        }
        for bits in [0x7ff0 << 48, 0xfff0 << 48, 0x7ff8 << 48, (0x7ff0 << 48) + 1, u64::MAX, u64::MAX >> 1] {
            assert_eq!(value(f64::from_bits(bits)), Value::Other);
        }
    }

    fn refusal(outline: &[f64]) -> Refusal {
        curves(outline, 3).expect_err("the outline is faulty")
    }

    #[test]
    fn the_first_faulty_coordinate_decides() {
        let not_whole = [f64::NAN, f64::INFINITY, -f64::INFINITY, 0.5, 2_000_000.5];
        let beyond = [1_048_577.0, -1_048_577.0, 1e300, 2f64.powi(53) + 2.0];
        for (a, b) in not_whole.into_iter().flat_map(|a| beyond.map(|b| (a, b))) {
            assert_eq!(refusal(&[1.0, 0.0, a, b, 0.0]), Refusal::NotWhole { index: 2 });
            assert_eq!(refusal(&[1.0, 0.0, b, a, 0.0]), Refusal::Coordinate { index: 2 });
            // 2 and 3 come before, and 17 afterwards.
            assert_eq!(refusal(&[a]), Refusal::Degree { index: 0 });
            assert_eq!(refusal(&[b]), Refusal::Degree { index: 0 });
            assert_eq!(refusal(&[1.0, a, b]), Refusal::CutShort { length: 3 });
            let apart = [1.0, 0.0, 0.0, 0.0, 0.0, 1.0, 5.0, 5.0, 5.0];
            assert_eq!(refusal(&[&apart[..], &[a]].concat()), Refusal::NotWhole { index: 9 });
            assert_eq!(refusal(&[&apart[..], &[5.0]].concat()), Refusal::Gap { index: 5 });
        }
    }

    #[test]
    fn a_zero_of_either_sign_is_0() {
        let outline = [1.0, 3.0, 4.0, -0.0, 0.0, 1.0, 0.0, -0.0, 7.0, 8.0];
        let read = curves(&outline, 3).expect("the outline is sound");
        assert_eq!(read, [Curve::new(1, &[3, 4, 0, 0]), Curve::new(1, &[0, 0, 7, 8])]);
        assert_eq!(refusal(&[-0.0]), Refusal::Degree { index: 0 });
    }

    #[test]
    fn numbers_are_written_out_exactly() {
        for n in [0, 1, -1, 3, 16, -17, 255, 363, -i64::from(FAR), i64::from(FAR), 1 - (1 << 30), 1 << 30] {
            for power in [4, 5] {
                let number = over_power(n, power);
                assert_eq!(number * f64::from(1 << power), n as f64);
                assert_eq!(number.is_sign_negative(), n < 0);
            }
        }
    }

    #[test]
    fn a_box_is_a_point_where_both_widths_are_0() {
        assert_eq!(box_short([8, 8, -24, -24]), Ok(Short::Point([0.5, -1.5])));
        assert_eq!(box_short([8, 8, -24, -23]), Ok(Short::Middle([0.5, -1.46875], [0.0, 0.03125])));
        assert_eq!(box_short([-8, 8, 5, 5]), Ok(Short::Middle([0.0, 0.3125], [0.5, 0.0])));
        let whole = Short::Middle([0.0, 0.0], [33_554_432.0, 33_554_432.0]);
        assert_eq!(box_short([-FAR, FAR, -FAR, FAR]), Ok(whole));
        assert_eq!(box_units([160, 160, 319, 363]), Ok([10.0, 10.0, 19.9375, 22.6875]));
    }

    #[test]
    fn a_box_is_checked_as_in_12() {
        for (place, bad) in
            [[1, 0, 2, 1], [0, FAR + 1, 2, 1], [0, 0, 2, 1], [0, 0, 0, FAR + 1]].iter().enumerate()
        {
            assert_eq!(box_units(*bad), Err(Refusal::BoxNumber { place }));
            assert_eq!(box_short(*bad), Err(Refusal::BoxNumber { place }));
        }
    }
}
