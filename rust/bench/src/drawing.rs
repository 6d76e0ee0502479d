//! Drawing: the table.

use crate::times::{by_turns, heading};
use bench::pairs::{crossing, neighbours, nested, single, Pair, PAIRS};
use contour_band::BoxBounds;
use std::hint::black_box;

/// Prints the table of proved time over plain time.
pub fn run() {
    println!(
        "Drawing, {PAIRS} pairs of boxes. Times are medians in microseconds, with the least in brackets."
    );
    println!("{:<28} {}  buffers", "input", heading("plain"));
    row("neighbours on a curve", &neighbours());
    row("crossing, eight vertices", &crossing());
    row("nested", &nested());
    row("single points", &single());
}

/// Times both engines on some pairs and prints a line.
fn row(name: &str, pairs: &[Pair]) {
    let as_boxes: Vec<[BoxBounds; 2]> = pairs.iter().map(|pair| pair.map(BoxBounds::from)).collect();
    let (mut by_plain, mut by_proved) = (vec![-1; 16 * pairs.len()], vec![-1; 16 * pairs.len()]);
    let (times, plain, proved) = by_turns(
        || {
            let lists = by_plain.chunks_exact_mut(16);
            let draw = |&[first, second]: &Pair, list| plain::draw(first, second, list).unwrap();
            black_box(pairs).iter().zip(lists).map(|(pair, list)| draw(pair, list)).sum::<usize>()
        },
        || {
            let lists = by_proved.chunks_exact_mut(16);
            let draw =
                |&[first, second]: &[BoxBounds; 2], list| contour_band::draw(first, second, list).unwrap();
            black_box(&as_boxes).iter().zip(lists).map(|(pair, list)| draw(pair, list)).sum::<usize>()
        },
    );
    let same = plain == proved && by_plain == by_proved;
    println!("{:<28} {}  {}", name, times, if same { "equal" } else { "DIFFERENT" });
    assert!(same, "{name}: the engines differ");
}
