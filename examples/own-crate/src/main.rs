//! Bands an arch, judges two points, and tells how wide the band is at its middle.

use contour_band::{Band, Outline};
use std::error::Error;

fn main() -> Result<(), Box<dyn Error>> {
    let mut outline = Outline::new();
    outline.curve(&[[0, 0], [10, 30], [20, 30], [30, 0]])?;
    let band = Band::new(&outline, 44, 3)?;
    println!("{} leaf, {} covers", band.report().leaves, band.covers().count());
    for [x, y] in [[240, 363], [240, 364]] {
        println!("({x} {y}): {}", if band.judge(x, y)?.is_on() { "on" } else { "off" });
    }
    let middle = band.covers().nth(1).ok_or("a leaf of three pieces has a second cover")?;
    println!("the middle cover: {:?}", middle.vertices);
    Ok(())
}
