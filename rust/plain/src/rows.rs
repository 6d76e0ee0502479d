//! The enclosure rows: how far a curve may lie from its chord, for each degree, second difference and m.
//! Document 01 gives those of degrees 2 and 3 with three pieces, requests 05 and 08 the rule for all;
//! `docs/ROWS.md` lists every entry.

use crate::degree::fewest_pieces;

/// The two rows of one second difference: ten-thousandths at each of B break points, which m = B − 1 pieces
/// have.
#[derive(Debug, Clone, Copy, PartialEq, Eq)]
pub struct Rows<const B: usize> {
    pub high: [i64; B],
    pub low: [i64; B],
}

/// The polynomial that a pair of rows bounds: the one of a degree whose Bézier ends are 0, and whose second
/// differences are 1 in one place, counted from 0, and otherwise 0.
#[derive(Clone, Copy)]
struct Polynomial {
    degree: usize,
    difference: usize,
}

impl Polynomial {
    /// Control value j, times the degree. They fall in even steps to the bend, then rise in even steps.
    const fn control_value(self, j: usize) -> i64 {
        let bend = self.difference + 1;
        let product = if j < bend { j * (self.degree - bend) } else { bend * (self.degree - j) };
        -(product as i64)
    }

    /// The value at i/m, times the degree and m^degree: the Bernstein sum.
    const fn value(self, i: usize, m: usize) -> i64 {
        let (mut sum, mut binomial, mut j) = (0, 1, 0);
        while j <= self.degree {
            let weight = binomial * i.pow(j as u32) * (m - i).pow((self.degree - j) as u32);
            sum += weight as i64 * self.control_value(j);
            binomial = binomial * (self.degree - j) / (j + 1);
            j += 1;
        }
        sum
    }

    /// The high entry at break point i: ten thousand times the value, rounded up. No value is positive, so
    /// division towards zero rounds up.
    const fn high(self, i: usize, m: usize) -> i64 {
        10_000 * self.value(i, m) / (self.degree * m.pow(self.degree as u32)) as i64
    }

    /// The low entries that were chosen for m pieces.
    const fn low(self, m: usize) -> &'static [i64] {
        match self.degree {
            2 => QUADRATIC_LOWS[m - 1],
            3 => CUBIC_LOWS[self.difference][m - 1],
            4 => QUARTIC_LOWS[self.difference][m - 3],
            _ => QUINTIC_LOWS[self.difference][m - 3],
        }
    }
}

/// The low rows of degree 2, from m = 1.
const QUADRATIC_LOWS: [&[i64]; 8] = [
    &[-2500, -2500],
    &[-625, -3125, -625],
    &[-278, -2500, -2500, -278],
    &[-156, -2032, -2656, -2032, -156],
    &[-100, -1700, -2500, -2500, -1700, -100],
    &[-69, -1459, -2292, -2570, -2292, -1459, -69],
    &[-51, -1276, -2092, -2500, -2500, -2092, -1276, -51],
    &[-39, -1133, -1914, -2383, -2539, -2383, -1914, -1133, -39],
];

/// The low rows of degree 3, by second difference, then from m = 1.
const CUBIC_LOWS: [[&[i64]; 8]; 2] = [
    [
        &[-5000, -2500],
        &[-1872, -4722, -71],
        &[-696, -4400, -3155, -88],
        &[-468, -3636, -3985, -2465, -9],
        &[-294, -3127, -4015, -3488, -1976, -8],
        &[-208, -2721, -3843, -3855, -3033, -1656, -3],
        &[-152, -2407, -3607, -3937, -3564, -2669, -1421, -3],
        &[-117, -2154, -3370, -3882, -3809, -3267, -2374, -1246, -1],
    ],
    [
        &[-2500, -5000],
        &[-71, -4722, -1872],
        &[-88, -3155, -4400, -696],
        &[-9, -2465, -3985, -3636, -468],
        &[-8, -1976, -3488, -4015, -3127, -294],
        &[-3, -1656, -3033, -3855, -3843, -2721, -208],
        &[-3, -1421, -2669, -3564, -3937, -3607, -2407, -152],
        &[-1, -1246, -2374, -3267, -3809, -3882, -3370, -2154, -117],
    ],
];

/// The low rows of degree 4, by second difference, then from m = 3.
const QUARTIC_LOWS: [[&[i64]; 6]; 3] = [
    [
        &[-1596, -5456, -3355, 0],
        &[-881, -4901, -4582, -2529, 0],
        &[-585, -4297, -4909, -3849, -2000, 0],
        &[-400, -3814, -4863, -4489, -3250, -1673, 0],
        &[-302, -3402, -4692, -4751, -4002, -2817, -1429, 0],
        &[-232, -3070, -4465, -4818, -4431, -3587, -2475, -1252, 0],
    ],
    [
        &[-133, -6250, -6250, -133],
        &[-83, -4782, -6800, -4782, -83],
        &[-26, -3914, -6253, -6253, -3914, -26],
        &[-24, -3269, -5643, -6443, -5643, -3269, -24],
        &[-10, -2826, -5045, -6250, -6250, -5045, -2826, -10],
        &[-7, -2478, -4546, -5896, -6372, -5896, -4546, -2478, -7],
    ],
    [
        &[0, -3355, -5456, -1596],
        &[0, -2529, -4582, -4901, -881],
        &[0, -2000, -3849, -4909, -4297, -585],
        &[0, -1673, -3250, -4489, -4863, -3814, -400],
        &[0, -1429, -2817, -4002, -4751, -4692, -3402, -302],
        &[0, -1252, -2475, -3587, -4431, -4818, -4465, -3070, -232],
    ],
];

/// The low rows of degree 5, by second difference, then from m = 3.
const QUINTIC_LOWS: [[&[i64]; 6]; 4] = [
    [
        &[-2578, -6154, -3337, 0],
        &[-1415, -5846, -4814, -2539, 0],
        &[-962, -5242, -5416, -3965, -1999, -1],
        &[-659, -4735, -5532, -4786, -3310, -1671, 0],
        &[-495, -4273, -5459, -5205, -4179, -2850, -1429, 0],
        &[-380, -3888, -5284, -5396, -4732, -3699, -2495, -1251, 0],
    ],
    [
        &[-377, -8918, -6766, 0],
        &[-207, -6968, -8496, -5016, 0],
        &[-68, -5784, -8291, -7357, -4004, 0],
        &[-51, -4855, -7745, -8065, -6344, -3337, 0],
        &[-26, -4204, -7081, -8143, -7483, -5538, -2858, 0],
        &[-19, -3693, -6474, -7902, -7966, -6834, -4893, -2502, 0],
    ],
    [
        &[0, -6766, -8918, -377],
        &[0, -5016, -8496, -6968, -207],
        &[0, -4004, -7357, -8291, -5784, -68],
        &[0, -3337, -6344, -8065, -7745, -4855, -51],
        &[0, -2858, -5538, -7483, -8143, -7081, -4204, -26],
        &[0, -2502, -4893, -6834, -7966, -7902, -6474, -3693, -19],
    ],
    [
        &[0, -3337, -6154, -2578],
        &[0, -2539, -4814, -5846, -1415],
        &[-1, -1999, -3965, -5416, -5242, -962],
        &[0, -1671, -3310, -4786, -5532, -4735, -659],
        &[0, -1429, -2850, -4179, -5205, -5459, -4273, -495],
        &[0, -1251, -2495, -3699, -4732, -5396, -5284, -3888, -380],
    ],
];

impl<const B: usize> Rows<B> {
    const QUADRATIC: &'static [Rows<B>] = &[Rows::new(2, 0)];
    const CUBIC: &'static [Rows<B>] = &[Rows::new(3, 0), Rows::new(3, 1)];
    const QUARTIC: &'static [Rows<B>] = &[Rows::new(4, 0), Rows::new(4, 1), Rows::new(4, 2)];
    const QUINTIC: &'static [Rows<B>] = &[Rows::new(5, 0), Rows::new(5, 1), Rows::new(5, 2), Rows::new(5, 3)];

    /// The rows of a degree, one pair for each second difference.
    pub fn of(degree: usize) -> &'static [Rows<B>] {
        match degree {
            2 => Rows::QUADRATIC,
            3 => Rows::CUBIC,
            4 => Rows::QUARTIC,
            5 => Rows::QUINTIC,
            _ => &[],
        }
    }

    /// The rows of one second difference, or zeros where m = B − 1 is less than the degree takes.
    const fn new(degree: usize, difference: usize) -> Rows<B> {
        let m = B - 1;
        let (mut high, mut low) = ([0; B], [0; B]);
        if m >= fewest_pieces(degree) as usize {
            let polynomial = Polynomial { degree, difference };
            let chosen = polynomial.low(m);
            assert!(chosen.len() == B);
            let mut i = 0;
            while i <= m {
                high[i] = polynomial.high(i, m);
                low[i] = chosen[i];
                i += 1;
            }
        }
        Rows { high, low }
    }
}

#[cfg(test)]
mod tests {
    use super::*;
    use crate::documented::{by_pieces, pairs, Pair};
    use crate::pieces::for_pieces;

    /// Every degree that has rows, with every m that it takes.
    fn settings() -> impl Iterator<Item = (usize, u32)> {
        (2..=5).flat_map(|degree| (fewest_pieces(degree)..=8).map(move |m| (degree, m)))
    }

    /// The pairs of rows of a degree with B − 1 pieces.
    fn listed<const B: usize>(degree: usize) -> Vec<Pair> {
        let wide = |row: [i64; B]| row.map(i128::from).to_vec();
        let pair = |(difference, rows): (usize, &Rows<B>)| Pair {
            degree,
            difference,
            m: B - 1,
            high: wide(rows.high),
            low: wide(rows.low),
        };
        Rows::<B>::of(degree).iter().enumerate().map(pair).collect()
    }

    /// Every pair of rows.
    fn table() -> Vec<Pair> {
        settings().flat_map(|(degree, m)| for_pieces!(m, listed)(degree)).collect()
    }

    fn find(degree: usize, difference: usize, m: usize) -> Pair {
        let is_it = |pair: &Pair| (pair.degree, pair.difference, pair.m) == (degree, difference, m);
        table().into_iter().find(is_it).expect("there is such a pair")
    }

    /// Coefficients of 1, u, .. u⁵ of the polynomial that a pair of rows bounds: −u(1−u) times the factor
    /// that the page gives.
    fn polynomial(pair: &Pair) -> [i128; 6] {
        let [a, b, c, d] = match (pair.degree, pair.difference) {
            (2, 0) => [1, 0, 0, 0],
            (3, 0) => [2, -1, 0, 0],
            (3, 1) => [1, 1, 0, 0],
            (4, 0) => [3, -3, 1, 0],
            (4, 1) => [2, 2, -2, 0],
            (4, 2) => [1, 1, 1, 0],
            (5, 0) => [4, -6, 4, -1],
            (5, 1) => [3, 3, -7, 3],
            (5, 2) => [2, 2, 2, -3],
            (5, 3) => [1, 1, 1, 1],
            _ => panic!("there is no such difference"),
        };
        [0, -a, a - b, b - c, c - d, d]
    }

    const BINOMIALS: [[i128; 6]; 6] = [
        [1, 0, 0, 0, 0, 0],
        [1, 1, 0, 0, 0, 0],
        [1, 2, 1, 0, 0, 0],
        [1, 3, 3, 1, 0, 0],
        [1, 4, 6, 4, 1, 0],
        [1, 5, 10, 10, 5, 1],
    ];

    /// The control values, in the Bézier form of a degree, of the polynomial with these coefficients of 1, u,
    /// .. u⁵: times 60, of which every binomial here is a divisor.
    fn controls(powers: [i128; 6], degree: usize) -> Vec<i128> {
        let term = |j: usize, n: usize| BINOMIALS[j][n] * (60 / BINOMIALS[degree][n]) * powers[n];
        (0..=degree).map(|j| (0..=j).map(|n| term(j, n)).sum()).collect()
    }

    /// Ten thousand times the polynomial at i/m, times m⁵.
    fn value(pair: &Pair, i: usize) -> i128 {
        let power = |n: usize| (i.pow(n as u32) * pair.m.pow(5 - n as u32)) as i128;
        10_000 * polynomial(pair).into_iter().enumerate().map(|(n, c)| c * power(n)).sum::<i128>()
    }

    fn allowance(degree: usize, m: usize) -> i128 {
        let (d, over) = (degree as i128, 8 * (m * m) as i128);
        (10_000 * d * (d - 1) + over - 1) / over
    }

    /// Ten thousand times the polynomial less the line between two entries of a row, on the piece from p/m
    /// to (p + 1)/m: its coefficients in Bernstein's form of degree 5, times 60m⁵.
    fn above_line(pair: &Pair, row: &[i128], p: usize) -> Vec<i128> {
        let (m, coefficients) = (pair.m as i128, polynomial(pair));
        // With u = (p + s)/m, the coefficients of 1, s, .. s⁵, times m⁵.
        let shifted = |n: usize| {
            let from = |j: usize| {
                let power = p.pow((j - n) as u32) * pair.m.pow((5 - j) as u32);
                BINOMIALS[j][n] * power as i128 * coefficients[j]
            };
            10_000 * (n..6).map(from).sum::<i128>()
        };
        let mut powers: [i128; 6] = std::array::from_fn(shifted);
        powers[0] -= m.pow(5) * row[p];
        powers[1] -= m.pow(5) * (row[p + 1] - row[p]);
        controls(powers, 5)
    }

    /// Whether a polynomial is nowhere negative from 0 to 1, as its Bernstein coefficients show within some
    /// halvings.
    fn nowhere_negative(coefficients: &[i128], halvings: u32) -> bool {
        if coefficients.iter().all(|&coefficient| coefficient >= 0) {
            return true;
        }
        if halvings == 0 {
            return false;
        }
        // De Casteljau's step at 1/2, with sums for averages: both halves come out times 2^degree.
        let (mut left, mut right) = (Vec::new(), Vec::new());
        let mut sums = coefficients.to_vec();
        while let Some(last) = sums.len().checked_sub(1) {
            left.push(sums[0] << last);
            right.insert(0, sums[last] << last);
            sums = sums.windows(2).map(|c| c[0] + c[1]).collect();
        }
        [left, right].iter().all(|half| nowhere_negative(half, halvings - 1))
    }

    /// Whether a low row, joined by lines, is nowhere above its polynomial.
    fn is_under(pair: &Pair, low: &[i128]) -> bool {
        (0..pair.m).all(|p| nowhere_negative(&above_line(pair, low, p), 7))
    }

    #[test]
    fn rows_are_those_of_the_page() {
        let (mut table, page) = (table(), pairs());
        table.sort_by_key(|pair| (pair.degree, pair.difference, pair.m));
        assert_eq!(table, page);
        let entries = |degrees: std::ops::RangeInclusive<usize>| -> usize {
            let own = table.iter().filter(|pair| degrees.contains(&pair.degree));
            own.map(|pair| pair.high.len() + pair.low.len()).sum()
        };
        assert_eq!((entries(2..=3), entries(4..=5)), (264, 546));
    }

    #[test]
    fn rows_bound_polynomials_with_ends_0_and_second_differences_0_and_1() {
        for pair in table() {
            let (powers, degree) = (polynomial(&pair), pair.degree);
            assert!(powers[degree + 1..].iter().all(|&coefficient| coefficient == 0));
            let controls = controls(powers, degree);
            assert_eq!((controls[0], controls[degree]), (0, 0));
            for (k, c) in controls.windows(3).enumerate() {
                assert_eq!(c[0] - 2 * c[1] + c[2], if k == pair.difference { 60 } else { 0 });
            }
        }
    }

    #[test]
    fn rows_of_three_pieces_are_document_01s() {
        let quadratic = Rows { high: [0, -2222, -2222, 0], low: [-278, -2500, -2500, -278] };
        let first = Rows { high: [0, -3703, -2962, 0], low: [-696, -4400, -3155, -88] };
        let second = Rows { high: [0, -2962, -3703, 0], low: [-88, -3155, -4400, -696] };
        assert_eq!(Rows::<4>::of(1), []);
        assert_eq!(Rows::<4>::of(2), [quadratic]);
        assert_eq!(Rows::<4>::of(3), [first, second]);
    }

    #[test]
    fn rows_high_are_the_polynomial_rounded_up() {
        for pair in table() {
            let over = pair.m.pow(5) as i128;
            for (i, high) in pair.high.iter().enumerate() {
                let exact = value(&pair, i);
                assert!((high - 1) * over < exact && exact <= high * over, "{pair:?} at {i}");
            }
        }
    }

    #[test]
    fn rows_joined_by_lines_lie_on_their_sides_of_the_polynomial() {
        for pair in table() {
            assert!(is_under(&pair, &pair.low), "{pair:?}");
            for p in 0..pair.m {
                let above_high = above_line(&pair, &pair.high, p);
                assert!(above_high.iter().all(|&coefficient| coefficient <= 0), "{pair:?} on piece {p}");
            }
        }
    }

    #[test]
    fn rows_low_are_no_deeper_than_the_rule_allows() {
        for pair in table() {
            let over = pair.m.pow(5) as i128;
            for (i, (low, high)) in pair.low.iter().zip(&pair.high).enumerate() {
                let deepest = value(&pair, i).div_euclid(over) - allowance(pair.degree, pair.m);
                assert!(deepest <= *low && low <= high, "{pair:?} at {i}");
            }
        }
    }

    #[test]
    fn rows_times_m_are_below_2_to_the_15_or_16() {
        let largest = |degree: usize| {
            let own = table().into_iter().filter(move |pair| pair.degree == degree);
            let entries =
                |pair: Pair| pair.high.into_iter().chain(pair.low).map(move |n| -n * pair.m as i128);
            own.flat_map(entries).max().expect("the degree has rows")
        };
        let largest = [2, 3, 4, 5].map(largest);
        assert_eq!(largest, [20_312, 31_056, 50_976, 63_728]);
        assert!(largest[..2].iter().all(|&n| n < 1 << 15) && largest.iter().all(|&n| n < 1 << 16));
    }

    #[test]
    fn rows_backwards_are_those_of_the_other_difference() {
        for pair in table() {
            let mut other = find(pair.degree, pair.degree - 2 - pair.difference, pair.m);
            other.high.reverse();
            other.low.reverse();
            assert_eq!((pair.high, pair.low), (other.high, other.low));
        }
    }

    #[test]
    fn rows_have_the_pages_g_and_allowance() {
        for (degree, m) in settings().map(|(degree, m)| (degree, m as usize)) {
            let pairs: Vec<Pair> = (0..degree - 1).map(|difference| find(degree, difference, m)).collect();
            let sum = |i: usize| pairs.iter().map(|pair| pair.high[i] - pair.low[i]).sum();
            let g: i128 = (0..=m).map(sum).max().expect("there are break points");
            assert_eq!(by_pieces(degree, "G", m), g);
            assert_eq!(by_pieces(degree, "allowance", m), allowance(degree, m));
        }
    }

    #[test]
    fn rows_that_cross_are_noticed() {
        // The source documents' decimals, rounded to the nearest.
        assert!(!is_under(&find(3, 0, 3), &[-695, -4399, -3154, -87]));
        // One above a line that touches the polynomial between break points.
        assert!(!is_under(&find(2, 0, 1), &[-2500, -2499]));
        assert!(!is_under(&find(2, 0, 3), &[-278, -2499, -2500, -278]));
        // The polynomial at the break points alone.
        for pair in table() {
            assert!(!is_under(&pair, &pair.high));
        }
    }
}
