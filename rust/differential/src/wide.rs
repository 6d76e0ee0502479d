//! Whole numbers of 512 bits, for products that 128 bits do not hold.

use std::cmp::Ordering;
use std::ops::{Add, Mul, Sub};

/// A number in two's complement: eight digits of 64 bits, the lowest first. Those who calculate with it stay
/// below 2^511 in size.
#[derive(Debug, Clone, Copy, PartialEq, Eq)]
pub struct Wide([u64; 8]);

impl From<i128> for Wide {
    fn from(number: i128) -> Wide {
        let sign = (number >> 127) as u64;
        let mut digits = [sign; 8];
        digits[0] = number as u64;
        digits[1] = (number >> 64) as u64;
        Wide(digits)
    }
}

impl Add for Wide {
    type Output = Wide;
    fn add(self, other: Wide) -> Wide {
        let mut carry = 0;
        Wide(std::array::from_fn(|i| {
            let sum = u128::from(self.0[i]) + u128::from(other.0[i]) + carry;
            carry = sum >> 64;
            sum as u64
        }))
    }
}

impl Sub for Wide {
    type Output = Wide;
    fn sub(self, other: Wide) -> Wide {
        self + other * Wide::from(-1)
    }
}

impl Mul for Wide {
    type Output = Wide;
    fn mul(self, other: Wide) -> Wide {
        let mut product = [0; 8];
        for i in 0..8 {
            let mut carry = 0;
            for j in 0..8 - i {
                let digit = u128::from(self.0[i]) * u128::from(other.0[j]) + product[i + j] + carry;
                product[i + j] = digit & u128::from(u64::MAX);
                carry = digit >> 64;
            }
        }
        Wide(product.map(|digit| digit as u64))
    }
}

impl Ord for Wide {
    fn cmp(&self, other: &Wide) -> Ordering {
        // The highest digit has the sign.
        let highest = |n: &Wide| n.0[7] as i64;
        highest(self).cmp(&highest(other)).then_with(|| self.0.iter().rev().cmp(other.0.iter().rev()))
    }
}

impl PartialOrd for Wide {
    fn partial_cmp(&self, other: &Wide) -> Option<Ordering> {
        Some(self.cmp(other))
    }
}

#[cfg(test)]
mod tests {
    use super::*;

    const SOME: [i128; 9] = [i64::MIN as i128, -(1 << 40), -7, -1, 0, 1, 5, 1 << 33, i64::MAX as i128];

    #[test]
    fn small_numbers_are_those_of_128_bits() {
        for (a, b) in SOME.iter().flat_map(|&a| SOME.map(|b| (a, b))) {
            let (wide_a, wide_b) = (Wide::from(a), Wide::from(b));
            assert_eq!(wide_a + wide_b, Wide::from(a + b));
            assert_eq!(wide_a - wide_b, Wide::from(a - b));
            assert_eq!(wide_a * wide_b, Wide::from(a * b));
            assert_eq!(wide_a.cmp(&wide_b), a.cmp(&b));
        }
    }

    #[test]
    fn large_numbers_keep_the_laws_of_whole_numbers() {
        let large = |n: i128, shift: u32| Wide::from(n) * Wide::from(1 << shift) * Wide::from(1 << 120);
        let zero = Wide::from(0);
        for (a, b) in SOME.iter().flat_map(|&a| SOME.map(|b| (a, b))) {
            let (x, y) = (large(a, 30), large(b, 29));
            assert_eq!((x + y) * (x - y), x * x - y * y);
            assert_eq!(x.cmp(&y), (2 * a).cmp(&b));
            assert_eq!((x - y).cmp(&zero), x.cmp(&y));
            assert!(x * x >= zero && x * x + y * y >= x * y);
        }
    }
}
