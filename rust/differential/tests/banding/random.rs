//! Random outlines with fixed seeds.

use differential::banding::{Answer, Comparison};
use differential::outlines::{damage, outline, tolerance};
use differential::pieces::{degrees, pieces};
use differential::random::Random;
use plain::record_length;

const EACH: u64 = 60_000;

/// Outlines that pass every check, each at one tolerance and with one m: into an empty list, into one that is exact
/// or longer, and at times into one that is a number short.
fn whole(name: &'static str, seed: u64) {
    let mut comparison = Comparison::new(name, seed);
    let mut random = Random::new(seed);
    for _ in 0..EACH {
        let m = pieces(&mut random);
        let outline = outline(&mut random, degrees(m));
        let tolerance = tolerance(&mut random);
        comparison.tally.outlines += 1;
        let Answer::Refused(8, leaves) = comparison.band(&outline, tolerance, m, 0) else {
            continue;
        };
        let exact = record_length(m) * leaves as usize;
        let longer = if random.one_in(2) { random.below(200) } else { 0 };
        comparison.band(&outline, tolerance, m, exact + longer);
        if random.one_in(8) {
            comparison.band(&outline, tolerance, m, exact - 1);
        }
    }
    assert!(comparison.tally.accepted.iter().all(|&accepted| accepted > EACH / 16));
    comparison.report();
}

/// Outlines damaged in one to three places.
fn broken(name: &'static str, seed: u64) {
    let mut comparison = Comparison::new(name, seed);
    let mut random = Random::new(seed);
    for _ in 0..EACH {
        let mut m = pieces(&mut random);
        let mut outline = outline(&mut random, degrees(m));
        let mut tolerance = tolerance(&mut random);
        damage(&mut random, &mut outline, &mut tolerance, &mut m);
        comparison.tally.outlines += 1;
        comparison.band_into_every_length(&outline, tolerance, m);
    }
    assert!((1..=8).chain([17, 18, 20]).all(|number| comparison.tally.refused[number] > 0));
    comparison.report();
}

#[test]
fn whole_1() {
    whole("banding, random outlines, seed 101", 101);
}

#[test]
fn whole_2() {
    whole("banding, random outlines, seed 102", 102);
}

#[test]
fn whole_3() {
    whole("banding, random outlines, seed 103", 103);
}

#[test]
fn whole_4() {
    whole("banding, random outlines, seed 104", 104);
}

#[test]
fn broken_1() {
    broken("banding, damaged random outlines, seed 201", 201);
}

#[test]
fn broken_2() {
    broken("banding, damaged random outlines, seed 202", 202);
}

#[test]
fn broken_3() {
    broken("banding, damaged random outlines, seed 203", 203);
}

#[test]
fn broken_4() {
    broken("banding, damaged random outlines, seed 204", 204);
}
