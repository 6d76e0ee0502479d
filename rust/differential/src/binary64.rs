//! Numbers in binary64 that are read, and numbers that are not; boxes in binary64 by both engines.

use crate::drawing::Numbers;
use crate::outlines::EDGE;
use contour_band::{Short, Units};

/// The number next to one in either direction.
fn neighbours(number: f64) -> [f64; 2] {
    let bits = number.to_bits();
    [f64::from_bits(bits - 1), f64::from_bits(bits + 1)]
}

/// Numbers that a check must not mistake, wherever they stand: what is no number, the infinities, zeros, the least and the
/// greatest in size, whole numbers in range and beyond it, those next to them, and halves.
pub fn specials() -> Vec<f64> {
    let edge = f64::from(EDGE);
    // Quiet and signalling, of either sign, with the least, some and all digits.
    let mut specials: Vec<f64> =
        [0x7ff8_0000_0000_0000, 0x7ff0_0000_0000_0001, 0x7ff4_0000_0000_1234, 0x7fff_ffff_ffff_ffff]
            .into_iter()
            .flat_map(|bits: u64| [f64::from_bits(bits), f64::from_bits(bits | 1 << 63)])
            .collect();
    let least = f64::from_bits(1);
    let subnormal = f64::from_bits((1 << 52) - 1);
    let sizes =
        [f64::INFINITY, 0.0, least, subnormal, f64::MIN_POSITIVE, f64::MAX, 1e-300, 1e300, 0.1, 0.5, 2.5];
    let wholes = [1.0, 2.0, 3.0, 4.0, 5.0, 6.0, edge - 1.0, edge, edge + 1.0];
    let wide = [31, 32, 51, 52, 53, 62, 63, 64].map(|power| 2f64.powi(power));
    let between = [edge - 0.5, edge + 0.5, 2_000_000.5, wide[2] + 0.5, wide[3] - 0.5, wide[4] + 2.0];
    let near = wholes.into_iter().chain(wide).flat_map(neighbours);
    let positive = sizes.into_iter().chain(wholes).chain(wide).chain(between).chain(near);
    specials.extend(positive.flat_map(|number| [number, -number]));
    specials
}

/// A list of integers in binary64.
pub fn in_binary64(numbers: &[i32]) -> Vec<f64> {
    numbers.iter().map(|&n| f64::from(n)).collect()
}

/// What is answered about a box: the bits of its numbers in stage units, and the bits of its short form, of which a point
/// has two and any other box four; or the number and the spot of the refusal.
pub type Answer = Result<([u64; 4], Vec<u64>), (u32, u64)>;

/// Asks both engines for a box in stage units and in the short form, and regains it from each. Returns the answer that they
/// share.
///
/// # Panics
///
/// Where an answer differs, one form is refused and the other is not, or what is regained is not the box.
pub fn hand_out(numbers: Numbers) -> Answer {
    let (proved, plain) = (by_proved(numbers), by_plain(numbers));
    assert_eq!(proved, plain, "the engines differ on the box {numbers:?}");
    if let Ok((units, short)) = &plain {
        assert_eq!(units.map(|bits| sixteenths(bits, 16)), numbers.map(i64::from));
        assert_eq!(regained(short), numbers.map(i64::from), "regained from {numbers:?}");
        let single = numbers[0] == numbers[1] && numbers[2] == numbers[3];
        assert_eq!(short.len(), if single { 2 } else { 4 });
    }
    plain
}

/// A number times 16 or 32, which is whole and far below 2^53.
fn sixteenths(bits: u64, of: i32) -> i64 {
    let number = f64::from_bits(bits);
    let product = number * f64::from(of);
    assert!(product == product.round() && bits != (-0.0f64).to_bits());
    product as i64
}

/// The box of a short form, in sixteenths.
fn regained(short: &[u64]) -> [i64; 4] {
    let n: Vec<i64> = short.iter().map(|&bits| sixteenths(bits, 32)).collect();
    let doubled = match n[..] {
        [x, y] => [x, x, y, y],
        [x, y, half_width, half_height] => [x - half_width, x + half_width, y - half_height, y + half_height],
        _ => panic!("a short form has two numbers or four"),
    };
    doubled.map(|n| {
        assert!(n % 2 == 0);
        n / 2
    })
}

fn by_proved(numbers: Numbers) -> Answer {
    let refused = |refusal: contour_band::Refusal| (refusal.number(), refusal.spot());
    let units = contour_band::box_units(numbers.into()).map_err(refused);
    let short = contour_band::box_short(numbers.into()).map_err(refused);
    let (units, short) = both(units, short)?;
    let Units { x_low, x_high, y_low, y_high } = units;
    let short = match short {
        Short::Point { x, y } => vec![x, y],
        Short::Middle { x, y, half_width, half_height } => vec![x, y, half_width, half_height],
    };
    Ok(([x_low, x_high, y_low, y_high].map(f64::to_bits), short.into_iter().map(f64::to_bits).collect()))
}

fn by_plain(numbers: Numbers) -> Answer {
    let refused = |refusal: plain::Refusal| (refusal.number(), refusal.spot());
    let (units, short) =
        both(plain::box_units(numbers).map_err(refused), plain::box_short(numbers).map_err(refused))?;
    let short = match short {
        plain::Short::Point(point) => point.to_vec(),
        plain::Short::Middle(middle, halves) => [middle, halves].concat(),
    };
    Ok((units.map(f64::to_bits), short.into_iter().map(f64::to_bits).collect()))
}

/// Both forms of a box, or the one refusal of both.
fn both<U, S>(units: Result<U, (u32, u64)>, short: Result<S, (u32, u64)>) -> Result<(U, S), (u32, u64)> {
    match (units, short) {
        (Ok(units), Ok(short)) => Ok((units, short)),
        (Err(one), Err(other)) if one == other => Err(one),
        (units, short) => panic!("one form is refused: {:?} {:?}", units.err(), short.err()),
    }
}
