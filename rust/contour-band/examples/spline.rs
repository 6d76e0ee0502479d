//! Bands a closed uniform cubic B-spline of four points, and judges points against it.

use contour_band::{Band, Refusal};

fn main() -> Result<(), Refusal> {
    let square = [[0, 0], [30, 0], [30, 30], [0, 30]];
    // The first three points stand again at the end, which closes the spline.
    let closed = [&square[..], &square[..3]].concat();
    let band = Band::of_spline(&closed, 9, 3)?;
    println!("{} curves, {} leaves", band.report().curves, band.report().leaves);
    for [x, y] in [[461, 240], [463, 240], [240, 240]] {
        println!("({x} {y}): {}", if band.judge(x, y)?.is_on() { "on" } else { "off" });
    }
    println!("three points: {}", Band::of_spline(&square[..3], 9, 3).expect_err("four points make a curve"));
    Ok(())
}
