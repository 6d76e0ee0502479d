//! Quotes over leaf lists: worked by hand, random lists, curve numbers in every order, bands, and every refusal.

use contour_band::Cents;
use differential::leaf_lists::{damage, leaf_list};
use differential::outlines::{deepest, outline, starts, tolerance, MOST_CURVES};
use differential::pieces::{degrees, pieces};
use differential::random::Random;
use plain::record_length;

/// The most records that a quote takes.
const MOST_RECORDS: usize = 1 << 20;

/// What both engines answer: the cents, or a refusal's number and spot.
fn quote(leaves: &[i32], m: u32) -> Result<u64, (u32, u64)> {
    let proved = contour_band::quote(leaves, m).map_err(|refusal| (refusal.number(), refusal.spot()));
    let plain = plain::quote(leaves, m).map_err(|refusal| (refusal.number(), refusal.spot()));
    assert_eq!(proved, plain.map(Cents), "m {m}, {} numbers", leaves.len());
    plain
}

/// A list of flat records of m pieces with these curve numbers.
fn flat(m: u32, numbers: impl ExactSizeIterator<Item = i32>) -> Vec<i32> {
    let mut leaves = vec![0; record_length(m) * numbers.len()];
    for (record, number) in leaves.chunks_exact_mut(record_length(m)).zip(numbers) {
        record[..2].copy_from_slice(&[number, 1]);
    }
    leaves
}

/// What curves with these counts of leaves come to: eighths of a cent are rounded.
fn total(counts: impl Iterator<Item = u64>) -> u64 {
    let price = |count: u64| if count < 3 { 140 * count.min(1) } else { 140 + 35 * (count - 2) };
    let eighths = 9 * counts.map(price).sum::<u64>();
    eighths / 8 + u64::from(eighths % 8 >= 4)
}

#[test]
fn worked_by_hand() {
    for m in 1..=8 {
        for (numbers, cents) in [
            (&[0][..], 158),            // 157.5
            (&[7, 7], 158),             // two are included
            (&[7, 7, 7], 197),          // 196.875
            (&[7, 8], 315),             // rounded once
            (&[0, 4_095], 315),         // the least number and the greatest
            (&[5, 6, 5, 6, 5], 354),    // 5 has three records in three runs: (175 + 140) x 9 / 8 = 354.375
            (&[3, 3, 3, 3, 2, 1], 551), // (210 + 140 + 140) x 9 / 8 = 551.25
        ] {
            assert_eq!(quote(&flat(m, numbers.iter().copied()), m), Ok(cents), "{numbers:?}");
        }
        assert_eq!(quote(&[], m), Err((9, 0)));
    }
}

/// Every list of up to seven records of four curve numbers, so each count by itself and each order of runs.
#[test]
fn every_order() {
    for length in 1..=7 {
        for word in 0..1_usize << (2 * length) {
            let number = |i: usize| (word >> (2 * i)) % 4;
            let counts = (0..4).map(|k| (0..length).filter(|&i| number(i) == k).count() as u64);
            let m = 1 + (word % 8) as u32;
            let leaves = flat(m, (0..length).map(|i| number(i) as i32 * 1_365));
            assert_eq!(quote(&leaves, m), Ok(total(counts)), "{length} {word}");
        }
    }
}

#[test]
fn random_lists() {
    let mut random = Random::new(1_101);
    for _ in 0..20_000 {
        let mut list = leaf_list(&mut random);
        assert!(quote(&list.numbers, list.m).is_ok());
        damage(&mut random, &mut list.numbers, &mut list.m, &mut 0, &mut 0);
        let _ = quote(&list.numbers, list.m);
    }
}

/// Each of the 4,096 numbers once, twice and three times, in runs and by turns.
#[test]
fn all_curve_numbers() {
    for m in 1..=8 {
        for times in 1..=3 {
            let cents = total([times as u64; MOST_CURVES].into_iter());
            let runs = flat(m, (0..times * MOST_CURVES).map(|i| (i / times) as i32));
            let turns = flat(m, (0..times * MOST_CURVES).map(|i| (i % MOST_CURVES) as i32));
            assert_eq!(quote(&runs, m), Ok(cents));
            assert_eq!(quote(&turns, m), Ok(cents));
        }
    }
}

#[test]
fn the_most_records() {
    // Each curve number has 256 records: 140 + 254 x 35 = 9,030.
    let turns = flat(1, (0..MOST_RECORDS).map(|i| (i % MOST_CURVES) as i32));
    assert_eq!(quote(&turns, 1), Ok(9_030 * 4_096 * 9 / 8));
    let mut one = flat(8, (0..MOST_RECORDS).map(|_| 4_095));
    assert_eq!(quote(&one, 8), Ok(((140 + 35 * (MOST_RECORDS as u64 - 2)) * 9 + 4) / 8));
    let last = one.len() - 1;
    one[last] = i32::MAX;
    assert_eq!(quote(&one, 8), Err((10, last as u64)));
}

/// Lists of zeros, of which 26 reads none: a list of the most records gets to 10, since node 0 is none.
#[test]
fn one_record_too_many() {
    for m in 1..=8 {
        let record = record_length(m);
        let zeros = vec![0; record * (MOST_RECORDS + 2)];
        let most = record * MOST_RECORDS;
        assert_eq!(quote(&zeros[..most], m), Err((10, 1)));
        for length in [most + record, most + 2 * record] {
            assert_eq!(quote(&zeros[..length], m), Err((26, length as u64)));
            assert_eq!(quote(&zeros[..length], 0), Err((18, 0)));
            assert_eq!(quote(&zeros[..length], 9), Err((18, 0)));
            assert_eq!(quote(&zeros[..length - 1], m), Err((9, length as u64 - 1)));
        }
        assert_eq!(quote(&zeros[..most + 1], m), Err((9, most as u64 + 1)));
    }
}

#[test]
fn refused() {
    let leaves = flat(3, [1].into_iter());
    for m in [0, 9, u32::MAX] {
        assert_eq!(quote(&leaves, m), Err((18, 0)));
        assert_eq!(quote(&[], m), Err((18, 0)));
    }
    assert_eq!(quote(&leaves[1..], 3), Err((9, 17)));
    assert_eq!(quote(&flat(3, [1, 4_096].into_iter()), 3), Err((10, 18)));
    assert_eq!(quote(&flat(3, [-1].into_iter()), 3), Err((10, 0)));
}

/// The quote over a band is the price of the leaves that each curve has where it is banded alone.
#[test]
fn of_bands() {
    let mut random = Random::new(1_102);
    let mut accepted = 0;
    while accepted < 3_000 {
        let m = pieces(&mut random);
        let (outline, tolerance) = (outline(&mut random, degrees(m)), tolerance(&mut random));
        let mut records = vec![0; record_length(m) * 256 * 64];
        let Ok(report) = contour_band::band(&outline, tolerance, m, &mut records) else { continue };
        let mut alone = vec![0; record_length(m) * 256];
        let starts = starts(&outline);
        let ends = starts[1..].iter().copied().chain([outline.len()]);
        let counts = starts.iter().zip(ends).map(|(&start, end)| {
            let report = contour_band::band(&outline[start..end], tolerance, m, &mut alone);
            report.expect("each curve is accepted").leaves as u64
        });
        let written = &records[..record_length(m) * report.leaves];
        assert_eq!(quote(written, m), Ok(total(counts)));
        accepted += 1;
    }
}

#[test]
fn of_the_largest_band() {
    let outline = deepest(&mut Random::new(1_103), 3, 64, 3);
    let mut records = vec![0; record_length(3) * 256 * 64];
    let report = contour_band::band(&outline, 3, 3, &mut records).expect("it is accepted");
    assert_eq!(report.leaves, 256 * 64);
    assert_eq!(quote(&records, 3), Ok(9_030 * 64 * 9 / 8));
}
