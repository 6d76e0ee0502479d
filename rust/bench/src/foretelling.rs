//! Foretelling: the table.

use crate::times::{by_turns, heading};
use bench::outlines::{cubics, nominal, quartics, quintics};
use std::hint::black_box;

/// Prints the table of proved time over plain time.
pub fn run() {
    println!("Foretelling. Times are medians in microseconds, with the least in brackets.");
    println!("{:<32} {:>7} {:>7} {}  buffers", "input", "leaves", "nodes", heading("plain"));
    for m in [3, 1, 8] {
        for tolerance in [3, 16, 65_536] {
            row(&format!("64 cubic curves, T {tolerance}, m {m}"), &cubics(), tolerance, m);
        }
        row(&format!("nominal, 20 curves, T 16, m {m}"), &nominal(), 16, m);
    }
    for (name, outline) in [("quartic", quartics()), ("quintic", quintics())] {
        for m in [3, 8] {
            row(&format!("64 {name} curves, T 16, m {m}"), &outline, 16, m);
        }
    }
}

/// Times both engines on one input and prints a line.
fn row(name: &str, outline: &[i32], tolerance: i32, m: u32) {
    let (mut by_plain, mut by_proved) = (vec![7; 64], vec![7; 64]);
    let (times, plain, proved) = by_turns(
        || plain::foretell(black_box(outline), tolerance, m, black_box(&mut by_plain)),
        || contour_band::foretell(black_box(outline), tolerance, m, black_box(&mut by_proved)),
    );
    let (Ok(plain), Ok(proved)) = (plain, proved) else {
        panic!("{name}: the outline is refused");
    };
    let told = proved.map_or((0, 0), |foretold| (foretold.leaves as u64, foretold.nodes as u64));
    let same = (plain.leaves, plain.nodes) == told && by_plain == by_proved;
    println!("{name:<32} {:>7} {:>7} {times}  {}", told.0, told.1, if same { "equal" } else { "DIFFERENT" });
    assert!(same, "{name}: the engines differ");
}
