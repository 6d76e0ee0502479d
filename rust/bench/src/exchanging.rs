//! Exchanging one curve: the table.

use crate::times::{by_turns, heading};
use bench::changes::change;
use bench::outlines::{cubics, nominal, quartics, quintics};
use contour_band::{band, exchange};
use std::hint::black_box;

/// Prints the table of the time of two exchanges, there and back, over that of banding both outlines anew.
pub fn run() {
    println!("Exchanging one curve and back. Times are medians in microseconds, with the least in brackets.");
    println!("{:<32} {}  buffers", "input", heading("anew"));
    for place in ["first", "middle", "last", "line"] {
        row(&format!("64 cubic curves, {place}, T 16, m 3"), place, &cubics(), 16, 3);
    }
    for (m, tolerance) in [(3, 256), (1, 16), (8, 16)] {
        row(&format!("64 cubic curves, T {tolerance}, m {m}"), "middle", &cubics(), tolerance, m);
    }
    row("nominal, 20 curves, T 16, m 3", "last", &nominal(), 16, 3);
    row("64 quartic curves, T 16, m 3", "middle", &quartics(), 16, 3);
    row("64 quintic curves, T 16, m 3", "middle", &quintics(), 16, 3);
}

/// Times both on one input and prints a line.
fn row(name: &str, place: &str, outline: &[i32], tolerance: i32, m: u32) {
    let change = change(place, outline, tolerance, m).expect("both outlines are accepted");
    let (mut anew, mut exchanged) = (change.records.clone(), change.records.clone());
    let turns = [[0, 1], [1, 0]];
    let (times, _, _) = by_turns(
        || {
            for [_, to] in turns {
                let room = black_box(&mut anew[..change.given[to]]);
                band(black_box(&change.outlines[to]), tolerance, m, room).expect("it is accepted");
            }
        },
        || {
            for [from, to] in turns {
                let (outline, records) =
                    (black_box(&change.outlines[from][..]), black_box(&mut exchanged[..]));
                let (curve, given) = (change.curves[to], change.given[from]);
                exchange(outline, tolerance, m, change.number, curve, given, records)
                    .expect("it is accepted");
            }
        },
    );
    let same = anew[..change.given[0]] == exchanged[..change.given[0]];
    println!("{name:<32} {times}  {}", if same { "equal" } else { "DIFFERENT" });
    assert!(same, "{name}: the bands differ");
}
