//! Random texts with fixed seeds.

use differential::random::Random;
use differential::text::{Comparison, Tally};
use differential::texts::{alter, damage, text};
use std::thread;

/// Texts of a test, over all its threads.
const EACH: u64 = 8_000;

/// Runs at the same time.
const THREADS: u64 = 4;

/// Compares on texts that are made of a seed by some threads. Answers what was compared.
fn compare(name: &'static str, seed: u64, make: impl Fn(&mut Random) -> Vec<u8> + Sync) -> Tally {
    let one = |thread: u64| {
        let mut comparison = Comparison::new(format!("{name}, thread {thread}"));
        let mut random = Random::new(1_000 * seed + thread);
        for _ in 0..EACH / THREADS {
            comparison.compare(&make(&mut random));
        }
        comparison.tally
    };
    let mut all = Comparison::new(name);
    thread::scope(|scope| {
        let threads: Vec<_> = (0..THREADS).map(|thread| scope.spawn(move || one(thread))).collect();
        for thread in threads {
            all.tally.add(&thread.join().expect("every text gets the same answer"));
        }
    });
    all.report();
    assert_eq!(all.tally.texts, EACH);
    all.tally
}

#[test]
fn whole() {
    let tally = compare("texts, random, seed 701", 701, text);
    let counts = [tally.accepted, tally.on, tally.off, tally.refused_points, tally.refused[7]];
    assert!(counts.iter().all(|&count| count > 100), "{tally}");
}

#[test]
fn altered() {
    let tally = compare("texts, altered, seed 702", 702, |random| {
        let mut text = text(random);
        alter(random, &mut text);
        text
    });
    // Degrees and the ends of curves follow from the lines, so 2 and 3 cannot occur.
    for number in [1, 4, 5, 6, 7, 8, 15, 16, 17] {
        assert!(tally.refused[number] > 50, "{number}: {tally}");
    }
    assert!(tally.accepted > 500 && tally.refused_points > 500, "{tally}");
}

#[test]
fn damaged() {
    let tally = compare("texts, damaged, seed 703", 703, |random| {
        let mut text = text(random);
        damage(random, &mut text);
        text
    });
    for number in [1, 4, 5, 6, 7, 8, 14, 15, 16, 17] {
        assert!(tally.refused[number] > 10, "{number}: {tally}");
    }
    assert!(tally.accepted > 500, "{tally}");
}
