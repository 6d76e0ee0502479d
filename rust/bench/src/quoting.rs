//! Quotes: the table.

use crate::times::{by_turns, heading};
use bench::points::flat;
use std::hint::black_box;

/// Prints the table of proved time over plain time.
pub fn run() {
    println!("Quotes. Times are medians in microseconds, with the least in brackets.");
    println!("{:<32} {:>9} {}  answers", "input", "cents", heading("plain"));
    for m in [3, 1, 8] {
        for count in [1, 1_000, 1 << 20] {
            let leaves = flat(count, m).records;
            let (times, plain, proved) = by_turns(
                || plain::quote(black_box(&leaves), m),
                || contour_band::quote(black_box(&leaves), m),
            );
            let (Ok(plain), Ok(proved)) = (plain, proved) else {
                panic!("{count} records, m {m}: the list is refused");
            };
            let same = plain == proved.0;
            let name = format!("{count} records, m {m}");
            println!("{name:<32} {plain:>9} {times}  {}", if same { "equal" } else { "DIFFERENT" });
            assert!(same, "{name}: the engines differ");
        }
    }
}
