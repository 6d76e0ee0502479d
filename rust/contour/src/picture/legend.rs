//! The scale bar and the words below the drawing.

use super::frame::Frame;
use super::{paths, Picture};
use crate::commands::Counts;
use std::io::{self, Write};

/// A sample at the left, and words for it.
pub struct Row {
    sample: &'static str,
    words: String,
}

/// The pixels from one row to the next.
const ROW: f64 = 24.0;

const OUTLINE: &str = r#"<path class="sample outline" d="M0 0H32"/>"#;
const COVERS: &str = r#"<rect class="even" y="-7" width="15" height="14"/><rect class="odd" x="17" y="-7" width="15" height="14"/>"#;
const BOX: &str = r#"<rect class="box" x="9" y="-7" width="14" height="14"/>"#;
const ON: &str = r#"<circle class="on" cx="16" r="6"/>"#;
const OFF: &str = r#"<path class="sample off" d="M11 -5L21 5M11 5L21 -5"/>"#;

/// The rows of a picture's legend.
pub fn rows(picture: &Picture) -> Vec<Row> {
    let mut rows = Vec::new();
    let mut row = |sample, words: String| rows.push(Row { sample, words });
    let fine = match paths::has_polylines(&picture.drawing.shape) {
        true => format!(" (splines and degrees 4 and 5 as polylines of {} lines a curve)", paths::LINES),
        false => String::new(),
    };
    row(OUTLINE, format!("outline{fine}"));
    row(COVERS, "covers; neighbouring leaves differ in colour".to_owned());
    if picture.boxes {
        row(BOX, "boxes at the break points".to_owned());
    }
    if !picture.points.is_empty() {
        let Counts { on, off, .. } = Counts::of(picture.points);
        row(ON, format!("points on the band: {on}"));
        row(OFF, format!("points off the band: {off} (pale at the edge: beyond the picture)"));
    }
    rows
}

/// The pixels that the scale bar and the legend take.
pub fn height(rows: &[Row]) -> f64 {
    ROW * (rows.len() as f64 + 2.0)
}

/// Writes the scale bar and the legend below the drawing.
pub fn write(out: &mut dyn Write, frame: &Frame, rows: &[Row]) -> io::Result<()> {
    let top = frame.picture_height() + ROW;
    let (sixteenths, words) = bar(frame);
    let end = 24.0 + frame.pixels(sixteenths as f64);
    writeln!(out, r#"<g class="scale" transform="translate(0 {top})">"#)?;
    writeln!(out, r#"<path class="sample bar" d="M24 -5V5M24 0H{end}M{end} -5V5"/>"#)?;
    writeln!(out, r#"<text x="{}" y="5">{words}</text>"#, end + 12.0)?;
    writeln!(out, "</g>")?;
    for (i, Row { sample, words }) in rows.iter().enumerate() {
        let y = top + ROW * (i + 1) as f64;
        writeln!(out, r#"<g class="legend" transform="translate(24 {y})">{sample}"#)?;
        writeln!(out, r#"<text x="44" y="5">{words}</text>"#)?;
        writeln!(out, "</g>")?;
    }
    Ok(())
}

/// The longest bar of at most 240 pixels: its length in sixteenths, and in words.
fn bar(frame: &Frame) -> (i64, String) {
    let fractions = [(1, "1/16"), (2, "1/8"), (4, "1/4"), (8, "1/2")];
    let fractions = fractions.map(|(sixteenths, part)| (sixteenths, format!("{part} of a stage unit")));
    let powers = (0..7).map(|power| 10_i64.pow(power));
    let units = powers.flat_map(|power| [1, 2, 5].map(|digit| digit * power));
    let units =
        units.map(|units| (16 * units, format!("{units} stage unit{}", if units == 1 { "" } else { "s" })));
    let fits = |(sixteenths, _): &(i64, String)| frame.pixels(*sixteenths as f64) <= 240.0;
    fractions.into_iter().chain(units).filter(fits).last().expect("a sixteenth is short enough")
}
