//! Nudges one curve of an outline, and changes its band by an exchange in place of banding anew.

use contour_band::{Band, Outline, Refusal};

fn main() -> Result<(), Refusal> {
    let mut outline = Outline::new();
    outline
        .curve(&[[0, 0], [10, 30], [20, 30], [30, 0]])?
        .curve(&[[30, 0], [30, -20]])?
        .curve(&[[30, -20], [15, -32], [0, -20]])?
        .curve(&[[0, -20], [0, 0]])?;
    let mut band = Band::new(&outline, 12, 3)?;
    println!("{} leaves", band.report().leaves);
    for depth in [40, 60, 120] {
        let report = band.exchange(&mut outline, 2, &[[30, -20], [15, -depth], [0, -20]])?;
        println!("a bow of depth {depth}: {} leaves", report.leaves);
    }
    assert_eq!(band, Band::new(&outline, 12, 3)?);
    let refused = band.exchange(&mut outline, 4, &[[0, 0], [1, 1]]).expect_err("there is no curve 4");
    println!("curve 4: {refused}");
    Ok(())
}
