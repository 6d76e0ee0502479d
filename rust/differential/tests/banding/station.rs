//! The bench station: outlines of about 64 curves and 128 leaves, and what a caller who gives lists gets for the same.

use differential::banding::Answer::{Accepted, Refused};
use differential::banding::{Answer, Caller, Comparison};
use differential::outlines::{damage, deepest, outline, tolerance, EDGE};
use differential::pieces::{degrees, pieces};
use differential::random::Random;
use plain::record_length;

/// At this tolerance a curve of `deepest` has four leaves.
const FOUR_LEAVES: i32 = 5_000;

/// The station's comparison and that of lists, on the same inputs.
struct Both {
    station: Comparison,
    lists: Comparison,
}

impl Both {
    fn new(name: &'static str, seed: u64) -> Both {
        let lists = Comparison::new("banding, the same as lists", seed);
        Both { station: Comparison::of(Caller::Station, name, seed), lists }
    }

    /// Bands for both callers. The station accepts what lists accept with at most 64 curves and 128 leaves, with the same
    /// records; where there are more leaves it says 19, whatever is lent; where there are more curves 5.
    fn band(&mut self, outline: &[i32], tolerance: i32, m: u32, length: usize) -> Answer {
        let station = self.station.band(outline, tolerance, m, length);
        let lists = self.lists.band(outline, tolerance, m, length);
        match (station, lists) {
            (Accepted { curves, leaves, .. }, _) => {
                assert!(curves <= 64 && leaves <= 128 && station == lists);
                assert_eq!(self.station.records(), self.lists.records());
            }
            (Refused(19, leaves), Accepted { leaves: all, curves, .. }) => {
                assert!(leaves > 128 && leaves == all && curves <= 64)
            }
            (Refused(19, leaves), Refused(8, all)) => assert!(leaves > 128 && leaves == all),
            (Refused(5, _), _) => assert!(outline.len() > 5 * 64),
            _ => assert_eq!(station, lists),
        }
        station
    }

    /// Bands into an empty list, one of one record, one a number short, an exact one and a longer one.
    fn band_into_every_length(&mut self, outline: &[i32], tolerance: i32, m: u32) -> Vec<Answer> {
        self.station.tally.outlines += 1;
        let record = record_length(m.clamp(1, 8));
        let exact = match self.lists.band(outline, tolerance, m, 0) {
            Refused(8, leaves) => record * leaves as usize,
            _ => 0,
        };
        let lengths = [0, record, exact.saturating_sub(1), exact, exact + 7];
        lengths.map(|length| self.band(outline, tolerance, m, length)).to_vec()
    }

    fn report(&self) {
        self.station.report();
    }
}

/// So many curves of four leaves, then so many lines, each from where the one before ends.
fn bows_and_lines(random: &mut Random, bows: usize, lines: usize, m: u32) -> Vec<i32> {
    let mut outline = deepest(random, 3, bows, m);
    let [x, y] = if let [.., x, y] = outline[..] { [x, y] } else { [0, 0] };
    outline.extend([1, x, y, x, y].repeat(lines));
    outline
}

#[test]
fn about_128_leaves() {
    let seed = 631;
    let mut both = Both::new("station, about 128 leaves, seed 631", seed);
    let mut random = Random::new(seed);
    for m in 1..=8 {
        for (bows, lines) in
            [(31, 3), (22, 39), (31, 4), (32, 0), (22, 40), (32, 1), (22, 41), (33, 0), (64, 0)]
        {
            let leaves = (4 * bows + lines) as u64;
            let curves = (bows + lines) as u64;
            let outline = bows_and_lines(&mut random, bows, lines, m);
            let accepted = Accepted { curves, leaves, nodes: 2 * leaves - curves };
            let few = Refused(8, leaves);
            let expected = match leaves {
                ..=128 => vec![few, few, few, accepted, accepted],
                _ => vec![Refused(19, leaves); 5],
            };
            assert_eq!(both.band_into_every_length(&outline, FOUR_LEAVES, m), expected);
        }
        // As many leaves as 64 curves can have.
        let outline = deepest(&mut random, 3, 64, m);
        assert_eq!(both.band_into_every_length(&outline, 3, m), [Refused(19, 16_384); 5]);
    }
    assert!([8, 19].iter().all(|&number| both.station.tally.refused[number] > 0));
    both.report();
}

/// 7 comes before 19, however many leaves were counted before it, and 17 and the like before both.
#[test]
fn too_wide_behind_too_many_leaves() {
    let seed = 632;
    let mut both = Both::new("station, too wide behind 129 leaves, seed 632", seed);
    let mut random = Random::new(seed);
    for m in 1..=8 {
        for bows in [1, 31, 32, 33, 62] {
            let mut outline = bows_and_lines(&mut random, bows, 1, m);
            let [.., x, y] = outline[..] else { panic!("there is a point") };
            let far = if y > 0 { -EDGE } else { EDGE };
            let last = outline.len();
            outline.extend([3, x, y, x, far, x, far, x, y]);
            let wide = Refused(7, 512 * (bows as u64 + 1) + 256);
            assert_eq!(both.band_into_every_length(&outline, 3, m), [wide; 5]);
            outline[last + 1] += if x > 0 { -1 } else { 1 };
            assert_eq!(both.band_into_every_length(&outline, 3, m), [Refused(17, last as u64); 5]);
        }
    }
    both.report();
}

#[test]
fn about_64_curves() {
    let seed = 633;
    let mut both = Both::new("station, about 64 curves, seed 633", seed);
    let mut random = Random::new(seed);
    for m in 1..=8 {
        for (bows, lines) in [
            (0, 63),
            (0, 64),
            (0, 65),
            (20, 44),
            (20, 45),
            (22, 42),
            (22, 43),
            (64, 1),
            (0, 4_096),
            (0, 4_097),
        ] {
            let outline = bows_and_lines(&mut random, bows, lines, m);
            let (curves, leaves) = ((bows + lines) as u64, (4 * bows + lines) as u64);
            // Of a 65th curve nothing is read, and no leaf is counted.
            let index = if bows < 64 { 9 * bows + 5 * (64 - bows) } else { 9 * 64 };
            let expected = match (curves, leaves) {
                (65.., _) => Refused(5, index as u64),
                (_, 129..) => Refused(19, leaves),
                _ => Accepted { curves, leaves, nodes: 2 * leaves - curves },
            };
            let answers = both.band_into_every_length(&outline, FOUR_LEAVES, m);
            assert_eq!(answers[4], expected);
            if curves > 64 {
                let mut outline = outline;
                outline[index] = 9;
                assert_eq!(both.band(&outline, FOUR_LEAVES, m, 0), expected);
                outline[index - 1] = EDGE + 1;
                assert_eq!(both.band(&outline, FOUR_LEAVES, m, 0), Refused(4, index as u64 - 1));
            }
        }
    }
    both.report();
}

/// Random outlines, whole and damaged.
#[test]
fn random() {
    let seed = 634;
    let mut both = Both::new("station, random outlines, seed 634", seed);
    let mut random = Random::new(seed);
    for i in 0..30_000 {
        let mut m = pieces(&mut random);
        let (mut outline, mut tolerance) = (outline(&mut random, degrees(m)), tolerance(&mut random));
        if i % 3 == 0 {
            damage(&mut random, &mut outline, &mut tolerance, &mut m);
        }
        both.band_into_every_length(&outline, tolerance, m);
    }
    assert!(both.station.tally.accepted.iter().all(|&accepted| accepted > 500));
    assert!((1..=8).chain(17..=20).all(|number| both.station.tally.refused[number] > 0));
    both.report();
}
