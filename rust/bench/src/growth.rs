//! How the time of banding grows: with the curves, with the leaves, with the depth and with m.

use crate::times::by_turns;
use bench::outlines::{arches, cubics, rounds};
use contour_band::record_length;
use std::hint::black_box;

/// Prints the tables of time for each leaf.
pub fn run() {
    println!("How banding grows. Times are medians in nanoseconds for each leaf.");
    println!("{:<36} {:>7} {:>7} {:>9} {:>9}", "input", "leaves", "nodes", "plain", "proved");
    let cubics = cubics();
    for curves in [1, 4, 16, 64, 256, 1_024, 4_096] {
        row(&format!("curves: {curves} cubic, T 16"), &rounds(curves), 16, 3);
    }
    for tolerance in [65_536, 4_096, 1_024, 256, 64, 16, 4, 3] {
        row(&format!("leaves: 64 cubic, T {tolerance}"), &cubics, tolerance, 3);
    }
    for depth in 0..=8 {
        row(&format!("depth: 64 quadratic, all at {depth}"), &arches(depth), 44, 3);
    }
    for m in 1..=8 {
        row(&format!("pieces: 64 cubic, T 16, m {m}"), &cubics, 16, m);
    }
}

/// Times both engines on one input and prints a line.
fn row(name: &str, outline: &[i32], tolerance: i32, m: u32) {
    // No curve here has fewer than seven numbers, or more than 256 leaves.
    let mut records = vec![0; outline.len() / 7 * 256 * record_length(m)];
    let mut by_plain = records.clone();
    let (times, _, proved) = by_turns(
        || plain::band(black_box(outline), tolerance, m, black_box(&mut by_plain)),
        || contour_band::band(black_box(outline), tolerance, m, black_box(&mut records)),
    );
    let report = proved.expect("the outline is accepted");
    let [plain, proved] = times.medians().map(|median| 1_000.0 * median / report.leaves as f64);
    println!("{name:<36} {:>7} {:>7} {plain:>9.0} {proved:>9.0}", report.leaves, report.nodes);
}
