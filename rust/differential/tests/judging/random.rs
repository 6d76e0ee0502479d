//! Random leaf lists with fixed seeds. Most of them banding would not write.

use differential::judging::Comparison;
use differential::leaf_lists::{damage, leaf_list};
use differential::random::Random;

const EACH: u64 = 40_000;

/// Lists that pass every check, with points mostly at the edges of their covers.
fn whole(name: &'static str, seed: u64) {
    let mut comparison = Comparison::new(name);
    let mut random = Random::new(seed);
    for _ in 0..EACH {
        let list = leaf_list(&mut random);
        for _ in 0..5 {
            let (x, y) = list.point(&mut random);
            comparison.judge(&list.numbers, list.m, x, y);
        }
    }
    let tally = &comparison.tally;
    assert!(tally.on > EACH && tally.off > EACH && tally.refused.is_empty());
    assert!(tally.by_cover.iter().all(|&on| on > EACH / 100), "{tally}");
    comparison.report();
}

/// Lists and points damaged in one to three places.
fn broken(name: &'static str, seed: u64) {
    let mut comparison = Comparison::new(name);
    let mut random = Random::new(seed);
    for _ in 0..2 * EACH {
        let list = leaf_list(&mut random);
        let (mut x, mut y) = list.point(&mut random);
        let (mut leaves, mut m) = (list.numbers, list.m);
        damage(&mut random, &mut leaves, &mut m, &mut x, &mut y);
        comparison.judge(&leaves, m, x, y);
    }
    assert!([9, 10, 11, 18].iter().all(|&number| comparison.tally.refused[number] > EACH / 20));
    comparison.report();
}

#[test]
fn whole_1() {
    whole("judging, random leaf lists, seed 701", 701);
}

#[test]
fn whole_2() {
    whole("judging, random leaf lists, seed 702", 702);
}

#[test]
fn whole_3() {
    whole("judging, random leaf lists, seed 703", 703);
}

#[test]
fn whole_4() {
    whole("judging, random leaf lists, seed 704", 704);
}

#[test]
fn broken_1() {
    broken("judging, damaged random leaf lists, seed 711", 711);
}

#[test]
fn broken_2() {
    broken("judging, damaged random leaf lists, seed 712", 712);
}
