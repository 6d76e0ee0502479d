//! Quotes an arch and the line back to its start at several tolerances: the finer the band, the more leaves it has.

use contour_band::{Band, Outline, Refusal};

fn main() -> Result<(), Refusal> {
    let mut outline = Outline::new();
    outline.curve(&[[0, 0], [10, 30], [20, 30], [30, 0]])?.curve(&[[30, 0], [0, 0]])?;
    for tolerance in [44, 16, 8, 4] {
        let band = Band::new(&outline, tolerance, 3)?;
        println!("tolerance {tolerance}/16: {} leaves, {}", band.report().leaves, band.quote());
    }
    Ok(())
}
