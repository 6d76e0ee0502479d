//! A quote: what the leaves of a list cost.

use crate::library;
use crate::refusal::Refusal;
use std::fmt;

/// A sum of money in cents. It is displayed without a currency, as in 1.58.
///
/// ```
/// use contour_band::Cents;
///
/// assert_eq!(Cents(158).to_string(), "1.58");
/// assert_eq!(Cents(5).to_string(), "0.05");
/// assert_eq!(Cents(200).to_string(), "2.00");
/// ```
#[derive(Debug, Clone, Copy, PartialEq, Eq, PartialOrd, Ord, Hash)]
pub struct Cents(pub u64);

impl fmt::Display for Cents {
    fn fmt(&self, f: &mut fmt::Formatter<'_>) -> fmt::Result {
        write!(f, "{}.{:02}", self.0 / 100, self.0 % 100)
    }
}

/// Quotes a list of leaf records of `m` pieces, as [`band`](crate::band) writes them.
///
/// Each curve number that has records costs 140 cents, with two of them included, and each further record of it 35. One
/// eighth of the sum is added, and the total is rounded to the cent, half a cent upwards. The records of a number are
/// counted over the whole list, wherever they stand, and a number without records costs nothing.
///
/// ```
/// use contour_band::{band, quote, record_length, Cents, Refusal};
///
/// // An arch and its chord: two curves. At a tolerance of 44 each has one leaf.
/// let outline = [3, 0, 0, 10, 30, 20, 30, 30, 0, 1, 30, 0, 0, 0];
/// let m = 3;
/// let mut records = vec![0; 5 * record_length(m)];
/// assert_eq!(band(&outline, 44, m, &mut records)?.leaves, 2);
/// // 140 + 140, and an eighth of it.
/// assert_eq!(quote(&records[..2 * record_length(m)], m), Ok(Cents(315)));
///
/// // At 8 the arch has four leaves: 140 + 2 × 35 + 140 are 350, and with an eighth 393.75.
/// assert_eq!(band(&outline, 8, m, &mut records)?.leaves, 5);
/// assert_eq!(quote(&records, m)?.to_string(), "3.94");
/// # Ok::<(), Refusal>(())
/// ```
///
/// # Errors
///
/// The first of [`Refusal::Pieces`], [`Refusal::LeafListLength`], [`Refusal::TooManyRecords`] and
/// [`Refusal::LeafListNumber`], in this order.
pub fn quote(leaves: &[i32], m: u32) -> Result<Cents, Refusal> {
    let answer = library::quote(leaves, m);
    if answer.refusal != 0 {
        return Err(Refusal::new(answer.refusal, answer.spot));
    }
    Ok(Cents(answer.cents))
}
