//! Outlines of integers, given as integers and in binary64: the same answers and the same records.

use differential::banding::Answer::Refused;
use differential::banding::{Answer, Comparison};
use differential::binary64::{in_binary64, specials};
use differential::outlines::{damage, outline, tolerance};
use differential::pieces::{degrees, pieces};
use differential::random::Random;
use plain::record_length;

/// The comparison of lists in binary64 and that of lists of integers, on the same numbers.
struct Both {
    binary64: Comparison,
    integers: Comparison,
}

impl Both {
    fn new(name: &'static str, seed: u64) -> Both {
        let integers = Comparison::new("binary64, the same as integers", seed);
        Both { binary64: Comparison::new(name, seed), integers }
    }

    /// Bands both lists, some zeros of the one negative, into lists of `length` numbers.
    fn band(
        &mut self,
        random: &mut Random,
        outline: &[i32],
        tolerance: i32,
        m: u32,
        length: usize,
    ) -> Answer {
        let mut numbers = in_binary64(outline);
        for number in numbers.iter_mut().filter(|number| **number == 0.0) {
            *number = random.pick(&[0.0, -0.0]);
        }
        let answer = self.binary64.band_binary64(&numbers, tolerance, m, length);
        assert_eq!(answer, self.integers.band(outline, tolerance, m, length), "{outline:?} {tolerance} {m}");
        assert_eq!(self.binary64.records(), self.integers.records());
        answer
    }

    /// Bands into an empty list, one a number short, an exact one and a longer one.
    fn band_into_every_length(&mut self, random: &mut Random, outline: &[i32], tolerance: i32, m: u32) {
        self.binary64.tally.outlines += 1;
        let empty = self.band(random, outline, tolerance, m, 0);
        if let Refused(8, leaves) = empty {
            let exact = record_length(m) * leaves as usize;
            for length in [exact - 1, exact, exact + 7] {
                self.band(random, outline, tolerance, m, length);
            }
        }
    }
}

#[test]
fn random_outlines() {
    let seed = 411;
    let mut both = Both::new("binary64, random outlines, seed 411", seed);
    let mut random = Random::new(seed);
    for _ in 0..30_000 {
        let m = pieces(&mut random);
        let (outline, tolerance) = (outline(&mut random, degrees(m)), tolerance(&mut random));
        both.band_into_every_length(&mut random, &outline, tolerance, m);
    }
    assert!(both.binary64.tally.accepted.iter().all(|&accepted| accepted > 500));
    both.binary64.report();
}

/// Damaged lists of integers, each of which is in binary64 as well, and the same lists with a special number in a place.
#[test]
fn damaged_outlines() {
    let seed = 412;
    let mut both = Both::new("binary64, damaged outlines, seed 412", seed);
    let mut random = Random::new(seed);
    let specials = specials();
    for _ in 0..40_000 {
        let mut m = pieces(&mut random);
        let (mut outline, mut tolerance) = (outline(&mut random, degrees(m)), tolerance(&mut random));
        if random.one_in(2) {
            damage(&mut random, &mut outline, &mut tolerance, &mut m);
        }
        both.band_into_every_length(&mut random, &outline, tolerance, m);
        if !outline.is_empty() {
            let mut numbers = in_binary64(&outline);
            let place = random.below(numbers.len());
            numbers[place] = random.pick(&specials);
            both.binary64.band_binary64(&numbers, tolerance, m, 100);
        }
    }
    let tally = &both.binary64.tally;
    assert!((1..=8).chain([17, 18, 20, 21]).all(|number| tally.refused[number] > 0));
    both.binary64.report();
}

#[test]
fn most_curves() {
    let mut both = Both::new("binary64, 4,095 to 4,097 curves", 413);
    let mut random = Random::new(413);
    let lines = |count: i32| -> Vec<i32> { (0..count).flat_map(|i| [1, i, -i, i + 1, -i - 1]).collect() };
    for count in 4_095..=4_097 {
        for m in [1, 3, 8] {
            let outline = lines(count);
            both.band_into_every_length(&mut random, &outline, 64, m);
            let last = outline.len() - 5;
            for (place, special) in [(last, f64::NAN), (last + 3, 0.5), (last - 2, f64::INFINITY)] {
                let mut numbers = in_binary64(&outline);
                numbers[place] = special;
                let answer = both.binary64.band_binary64(&numbers, 64, m, 0);
                let faulty = if place == last { 2 } else { 21 };
                let expected = if count == 4_097 && place >= last { 5 } else { faulty };
                let spot = if expected == 5 { last } else { place };
                assert_eq!(answer, Refused(expected, spot as u64));
            }
        }
    }
    both.binary64.report();
}
