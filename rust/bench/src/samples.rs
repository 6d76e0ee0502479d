//! The band from samples against the engine's: times, and the points of a curve that a band misses.

use crate::times::{by_turns, heading};
use bench::outlines::{cubics, nominal};
use bench::sampled::{self, Packing, M, RECORD, SAMPLES};
use differential::covers::witness_at;
use differential::curves::{curves, Curve};
use differential::outlines;
use differential::random::Random;
use std::hint::black_box;

/// How many random outlines are looked at.
const OUTLINES: usize = 1_000;

/// The curves are looked at where they are sampled and midway between: p over this number.
const PARTS: i128 = 2 * (SAMPLES as i128 - 1);

/// Prints the times, and which share of bands misses a point of its own curves.
pub fn run() {
    let (cubics, nominal) = (cubics(), nominal());
    println!("Against {SAMPLES} samples of each curve in binary64, with as many leaves for each curve.");
    println!("{:<28} {:>7} {}", "input", "leaves", heading("sampled"));
    for tolerance in [3, 16, 256, 65_536] {
        row(&format!("64 cubic curves, T {tolerance}"), &cubics, tolerance);
    }
    for tolerance in [3, 16] {
        row(&format!("nominal, 20 curves, T {tolerance}"), &nominal, tolerance);
    }
    println!();
    println!("Points of a curve that its own band misses, at the samples and midway between them, counted exactly.");
    println!("{:<28} {:>9} {:>12} {:>12} {:>12}", "", "of", "cut", "outwards", "proved");
    for (name, outline, tolerance) in
        [("64 cubic curves, T 256", &cubics, 256), ("nominal, T 16", &nominal, 16)]
    {
        let missed = Bands::new(outline, tolerance)
            .expect("the outline is accepted")
            .each(|band| band.misses().count());
        let of = curves(outline).len() * (PARTS as usize + 1);
        println!("{name:<28} {of:>9} {:>12} {:>12} {:>12}", missed[0], missed[1], missed[2]);
    }
    random_outlines();
}

/// Counts the random outlines whose band misses a point.
fn random_outlines() {
    let mut random = Random::new(301);
    let mut missed = [0; 3];
    let mut accepted = 0;
    while accepted < OUTLINES {
        let outline = outlines::outline(&mut random, 1..=3);
        let tolerance = outlines::tolerance(&mut random);
        let Some(bands) = Bands::new(&outline, tolerance) else { continue };
        accepted += 1;
        let misses = bands.each(|band| usize::from(band.misses().next().is_some()));
        for (sum, one) in missed.iter_mut().zip(misses) {
            *sum += one;
        }
    }
    println!(
        "{:<28} {accepted:>9} {:>12} {:>12} {:>12}",
        "random outlines with a miss", missed[0], missed[1], missed[2]
    );
    assert_eq!(missed[2], 0, "the proved band misses a point");
}

/// Times both methods on one outline and prints a line.
fn row(name: &str, outline: &[i32], tolerance: i32) {
    let mut records = vec![0; 64 * 256 * RECORD];
    let leaves = banded(outline, tolerance, &mut records).expect("the outline is accepted");
    let mut by_samples = records.clone();
    let (times, (), _) = by_turns(
        || sampled::band(black_box(outline), &leaves, Packing::TowardsZero, black_box(&mut by_samples)),
        || contour_band::band(black_box(outline), tolerance, M, black_box(&mut records)),
    );
    println!("{:<28} {:>7} {}", name, leaves.iter().sum::<usize>(), times);
}

/// Bands an outline, and counts the leaves of each curve. Nothing where it is refused.
fn banded(outline: &[i32], tolerance: i32, records: &mut [i32]) -> Option<Vec<usize>> {
    let report = contour_band::band(outline, tolerance, M, records).ok()?;
    let mut leaves = vec![0; report.curves];
    for record in records.chunks_exact(RECORD).take(report.leaves) {
        leaves[record[0] as usize] += 1;
    }
    Some(leaves)
}

/// The bands of one outline: from samples cut towards zero, from samples rounded outwards, and the engine's.
struct Bands<'a> {
    outline: &'a [i32],
    records: [Vec<i32>; 3],
}

impl<'a> Bands<'a> {
    fn new(outline: &'a [i32], tolerance: i32) -> Option<Bands<'a>> {
        let mut proved = vec![0; 64 * 256 * RECORD];
        let leaves = banded(outline, tolerance, &mut proved)?;
        proved.truncate(RECORD * leaves.iter().sum::<usize>());
        let [cut, outwards] = [Packing::TowardsZero, Packing::Outwards].map(|packing| {
            let mut records = vec![0; proved.len()];
            sampled::band(outline, &leaves, packing, &mut records);
            records
        });
        Some(Bands { outline, records: [cut, outwards, proved] })
    }

    fn each(&self, count: impl Fn(Band) -> usize) -> [usize; 3] {
        [0, 1, 2].map(|i| count(Band { outline: self.outline, records: &self.records[i] }))
    }
}

/// A band and the outline that it is for.
struct Band<'a> {
    outline: &'a [i32],
    records: &'a [i32],
}

impl<'a> Band<'a> {
    /// The curves and numbers p at which the curve at p over the parts is on no cover of the band.
    fn misses(self) -> impl Iterator<Item = (usize, i128)> + 'a {
        curves(self.outline).into_iter().enumerate().flat_map(move |(number, curve)| {
            let own = move |record: &&[i32]| record[0] == number as i32;
            let own: Vec<&[i32]> = self.records.chunks_exact(RECORD).filter(own).collect();
            (0..=PARTS).filter(move |&p| !held(&own, self.records, &curve, p)).map(move |p| (number, p))
        })
    }
}

/// Whether a cover of the curve's own records, or else of any record, holds the curve at p over the parts.
fn held(own: &[&[i32]], records: &[i32], curve: &Curve, p: i128) -> bool {
    let scale = PARTS.pow(curve.degree());
    let point = curve.sixteenths(p, PARTS);
    let holds = |record: &[i32]| {
        record[2..].windows(8).step_by(4).any(|two| witness_at(&two[..4], &two[4..], point, scale).is_some())
    };
    own.iter().any(|record| holds(record)) || records.chunks_exact(RECORD).any(holds)
}
