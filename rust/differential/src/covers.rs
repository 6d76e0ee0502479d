//! Whether a cover holds a point, decided in a way of its own: by trying every fraction at which the
//! answer can change.

use plain::record_length;

/// A fraction from 0 to 1.
#[derive(Debug, Clone, Copy)]
pub struct Fraction {
    /// Above the line, not negative.
    pub above: i128,
    /// Below the line, positive.
    pub below: i128,
}

/// A fraction s for which the box (1 − s) × first + s × second holds the point, if there is one. A
/// box is x low, x high, y low, y high.
///
/// The fractions that do so are all those between two of them, and these two are 0, 1, or where a
/// moving side of the box passes the point.
pub fn witness(first: &[i32], second: &[i32], x: i32, y: i32) -> Option<Fraction> {
    witness_at(first, second, [x, y].map(i128::from), 1)
}

/// The same for a point with fractions: its x and y are these numbers over `scale`. Two numbers of a box
/// and of the point, times the scale, are less than 2^62 apart.
pub fn witness_at(first: &[i32], second: &[i32], point: [i128; 2], scale: i128) -> Option<Fraction> {
    let [x_low, x_high, y_low, y_high] = [0, 1, 2, 3].map(|i| {
        let from_point = |number: i32| i128::from(number) * scale - point[i / 2];
        Side { from: from_point(first[i]), to: from_point(second[i]) }
    });
    let held = |s: &Fraction| x_low.at(s) <= 0 && x_high.at(s) >= 0 && y_low.at(s) <= 0 && y_high.at(s) >= 0;
    let passes = [x_low, x_high, y_low, y_high].into_iter().filter_map(Side::passes);
    let ends = [0, 1].map(|above| Fraction { above, below: 1 });
    ends.into_iter().chain(passes).find(held)
}

/// Where a side of the box stands, less the point's coordinate, at s = 0 and at s = 1.
#[derive(Debug, Clone, Copy)]
struct Side {
    from: i128,
    to: i128,
}

impl Side {
    /// Where it stands at s, times the number below s.
    fn at(self, s: &Fraction) -> i128 {
        (s.below - s.above) * self.from + s.above * self.to
    }

    /// The s at which it passes the point, if the two ends lie on either side.
    fn passes(self) -> Option<Fraction> {
        (self.from.signum() * self.to.signum() < 0)
            .then(|| Fraction { above: self.from.abs(), below: self.from.abs() + self.to.abs() })
    }
}

/// A fraction for a cover of a record.
pub fn witness_of(record: &[i32], cover: usize, x: i32, y: i32) -> Option<Fraction> {
    let start = 2 + 4 * cover;
    witness(&record[start..start + 4], &record[start + 4..start + 8], x, y)
}

/// Every record and cover of a list of records of m pieces that hold the point, by record and then by cover.
pub fn holders(leaves: &[i32], m: u32, x: i32, y: i32) -> impl Iterator<Item = (usize, usize)> + '_ {
    let records = leaves.chunks_exact(record_length(m)).enumerate();
    let all = records.flat_map(move |(leaf, record)| (0..m as usize).map(move |cover| (leaf, record, cover)));
    let held = all.filter(move |&(_, record, cover)| witness_of(record, cover, x, y).is_some());
    held.map(|(leaf, _, cover)| (leaf, cover))
}

#[cfg(test)]
mod tests {
    use super::*;

    #[test]
    fn the_documents_hexagon_and_octagon() {
        for x in -12_i32..=12 {
            for y in -12_i32..=12 {
                let hexagon = (0..=4).contains(&x) && (0..=4).contains(&y) && (x - y).abs() <= 1;
                let held = witness(&[0, 1, 0, 1], &[3, 4, 3, 4], x, y);
                assert_eq!(held.is_some(), hexagon, "({x} {y})");
                let octagon = x.abs() <= 10 && y.abs() <= 10 && x.abs() + y.abs() <= 11;
                let held = witness(&[-10, 10, -1, 1], &[-1, 1, -10, 10], x, y);
                assert_eq!(held.is_some(), octagon, "({x} {y})");
            }
        }
    }

    #[test]
    fn a_segment_holds_its_whole_points_only() {
        let held = |x, y| witness(&[-3, -3, 1, 1], &[6, 6, 7, 7], x, y);
        let Fraction { above, below } = held(3, 5).expect("(3 5) lies at two thirds");
        assert_eq!(3 * above, 2 * below);
        assert!(held(3, 4).is_none() && held(2, 5).is_none() && held(9, 9).is_none());
    }
}
