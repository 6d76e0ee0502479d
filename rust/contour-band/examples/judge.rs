//! Bands a cubic arch and a line, judges measured points against the band, and prints the judgements.

use contour_band::{Band, Judgement, Outline, Refusal};

fn main() -> Result<(), Refusal> {
    let mut outline = Outline::new();
    outline.curve(&[[0, 0], [10, 30], [20, 30], [30, 0]])?.curve(&[[30, 0], [0, 0]])?;
    let band = Band::new(&outline, 44, 3)?;
    let points = [[240, 363], [240, 364], [100, 0], [100, -1], [0, i32::MAX]];
    for ([x, y], judgement) in points.into_iter().zip(band.judge_points(&points)) {
        match judgement {
            Ok(Judgement::On { leaf, cover }) => println!("({x} {y}): on, cover {cover} of leaf {leaf}"),
            Ok(Judgement::Off) => println!("({x} {y}): off"),
            Err(refused) => println!("({x} {y}): {refused}"),
        }
    }
    Ok(())
}
