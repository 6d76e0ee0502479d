//! The tightest band that fits: the table.

use crate::times::{by_turns, heading};
use bench::outlines::{cubics, nominal, quartics, quintics};
use std::hint::black_box;

/// Prints the table of proved time over plain time.
pub fn run() {
    println!("The tightest band. Times are medians in microseconds, with the least in brackets.");
    println!("{:<32} {:>9} {}  tolerances", "input", "tolerance", heading("plain"));
    for m in [3, 1, 8] {
        for leaves in [64, 128, 896] {
            row(&format!("64 cubic curves, R {leaves}, m {m}"), &cubics(), leaves, m);
        }
        row(&format!("nominal, 20 curves, R 128, m {m}"), &nominal(), 128, m);
    }
    for (name, outline) in [("quartic", quartics()), ("quintic", quintics())] {
        for m in [3, 8] {
            row(&format!("64 {name} curves, R 128, m {m}"), &outline, 128, m);
        }
    }
}

/// Times both engines on one input and prints a line.
fn row(name: &str, outline: &[i32], leaves: usize, m: u32) {
    let (times, plain, proved) = by_turns(
        || plain::tightest(black_box(outline), m, leaves),
        || contour_band::tightest(black_box(outline), m, leaves),
    );
    let (Ok(plain), Ok(proved)) = (plain, proved) else {
        panic!("{name}: the outline is refused");
    };
    let same = plain == proved;
    println!("{name:<32} {:>9} {times}  {}", proved.unwrap_or(0), if same { "equal" } else { "DIFFERENT" });
    assert!(same, "{name}: the engines differ");
}
