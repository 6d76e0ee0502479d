//! Bands a curve of degree 5 with each number of pieces that it takes, and prints how many leaves and covers there are; then
//! the covers of its first leaf with five pieces, as polygons.

use contour_band::{Band, Outline, Refusal};

fn main() -> Result<(), Refusal> {
    let mut outline = Outline::new();
    outline.curve(&[[0, 0], [20, 60], [40, -30], [80, 90], [110, 40], [120, 0]])?;
    for pieces in 3..=8 {
        let band = Band::new(&outline, 16, pieces)?;
        println!("{pieces} pieces: {} leaves, {} covers", band.report().leaves, band.covers().count());
    }
    for cover in Band::new(&outline, 16, 5)?.covers().take_while(|cover| cover.leaf == 0) {
        println!("cover {}: {:?}", cover.cover, cover.vertices);
    }
    println!("2 pieces: {}", Band::new(&outline, 16, 2).expect_err("degree 5 takes three pieces and more"));
    Ok(())
}
