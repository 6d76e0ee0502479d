//! Banding: the inputs and the table.

use crate::times::{by_turns, heading};
use bench::outlines::{cubics, nominal, quartics, quintics};
use contour_band::record_length;
use std::hint::black_box;

/// Prints the table of proved time over plain time.
pub fn run() {
    let cubics = cubics();
    let nominal = nominal();
    println!(
        "Banding. Times are medians in microseconds, with the least in brackets; both engines take turns."
    );
    println!("{:<32} {:>6} {:>7} {:>7} {}  buffers", "input", "curves", "leaves", "nodes", heading("plain"));
    for m in [3, 1, 8] {
        // With one piece the cubic curves are refused at T 3.
        for tolerance in [3, 16, 256, 65_536].into_iter().skip(usize::from(m == 1)) {
            row(&format!("64 cubic curves, T {tolerance}, m {m}"), &cubics, tolerance, m);
        }
        for tolerance in [3, 16] {
            row(&format!("nominal, 20 curves, T {tolerance}, m {m}"), &nominal, tolerance, m);
        }
    }
    for (name, outline) in [("quartic", quartics()), ("quintic", quintics())] {
        for (m, tolerance) in [3, 8].into_iter().flat_map(|m| [3, 16, 256, 65_536].map(|t| (m, t))) {
            row(&format!("64 {name} curves, T {tolerance}, m {m}"), &outline, tolerance, m);
        }
    }
}

/// Times both engines on one input and prints a line.
fn row(name: &str, outline: &[i32], tolerance: i32, m: u32) {
    let room = record_length(m) * 256 * 64;
    let (mut by_plain, mut by_proved) = (vec![-1; room], vec![-1; room]);
    let (times, plain, proved) = by_turns(
        || plain::band(black_box(outline), tolerance, m, black_box(&mut by_plain)),
        || contour_band::band(black_box(outline), tolerance, m, black_box(&mut by_proved)),
    );
    let (Ok(plain), Ok(proved)) = (plain, proved) else {
        panic!("{name}: the outline is refused");
    };
    let report = [plain.curves, plain.leaves, plain.nodes];
    let by_both = [proved.curves, proved.leaves, proved.nodes].map(|count| count as u64) == report;
    let same = by_both && by_plain == by_proved;
    let written = record_length(m) * proved.leaves;
    let untouched = by_proved[written..].iter().all(|&n| n == -1);
    println!(
        "{:<32} {:>6} {:>7} {:>7} {}  {}, rest {}",
        name,
        report[0],
        report[1],
        report[2],
        times,
        if same { "equal" } else { "DIFFERENT" },
        if untouched { "untouched" } else { "TOUCHED" },
    );
    assert!(same && untouched, "{name}: the engines differ");
}
