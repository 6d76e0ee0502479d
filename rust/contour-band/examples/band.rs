//! Bands a cubic arch and a line at two tolerances, and prints the leaves.

use contour_band::{Band, Outline, Refusal};

fn main() -> Result<(), Refusal> {
    let mut outline = Outline::new();
    outline.curve(&[[0, 0], [10, 30], [20, 30], [30, 0]])?.curve(&[[30, 0], [0, 0]])?;
    for tolerance in [44, 43] {
        let band = Band::new(&outline, tolerance, 3)?;
        let report = band.report();
        println!(
            "tolerance {tolerance}/16: {} curves, {} leaves, {} nodes",
            report.curves, report.leaves, report.nodes
        );
        for leaf in band.leaves() {
            print!("curve {} node {}:", leaf.curve, leaf.node);
            for b in leaf.boxes {
                print!(" x {}..{} y {}..{};", b.x.low, b.x.high, b.y.low, b.y.high);
            }
            println!();
        }
    }
    let refused = outline.curve(&[[0, 0]; 7]).expect_err("there is no degree 6");
    println!("degree 6: {refused}");
    Ok(())
}
