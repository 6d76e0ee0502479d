//! A picture of a band, as SVG.

mod frame;
mod legend;
mod paths;

use crate::commands::{Counts, Judged};
use crate::drawing::{Drawing, Shape};
use crate::progress::Progress;
use contour_band::{Band, Judgement};
use frame::Frame;
use std::io::{self, Write};

/// What is drawn: an outline, its band, and judged points.
pub struct Picture<'a> {
    /// The outline.
    pub drawing: &'a Drawing,
    /// Its band.
    pub band: &'a Band,
    /// Points that were judged against the band.
    pub points: &'a [Judged],
    /// Whether the boxes at the break points are drawn.
    pub boxes: bool,
}

impl Picture<'_> {
    /// Writes the picture. Places in its drawing are sixteenths of a stage unit from the corner that `data-origin` names.
    pub fn write(&self, out: &mut dyn Write) -> io::Result<()> {
        let frame = Frame::of(self.band);
        let rows = legend::rows(self);
        let (width, height) = (frame.picture_width(), frame.picture_height() + legend::height(&rows));
        writeln!(
            out,
            r#"<svg xmlns="http://www.w3.org/2000/svg" width="{width}" height="{height}" viewBox="0 0 {width} {height}" role="img" aria-labelledby="title description">"#
        )?;
        writeln!(out, r#"<title id="title">Contour band of {}</title>"#, escaped(&self.drawing.name))?;
        writeln!(out, r#"<desc id="description">{}</desc>"#, self.description())?;
        style(out, &frame)?;
        writeln!(out, r#"<rect class="paper" width="{width}" height="{height}"/>"#)?;
        writeln!(out, "{}", frame.group())?;
        self.covers(out, &frame)?;
        if self.boxes {
            self.break_boxes(out, &frame)?;
        }
        writeln!(out, r#"<path class="outline" d="{}"/>"#, paths::outline(&self.drawing.shape, &frame))?;
        for judged in self.points {
            point(out, judged, &frame)?;
        }
        writeln!(out, "</g>")?;
        legend::write(out, &frame, &rows)?;
        writeln!(out, "</svg>")
    }

    /// The picture in words, for those who hear it.
    fn description(&self) -> String {
        let report = self.band.report();
        let what = match self.drawing.shape {
            Shape::Curves(_) => "Curves",
            Shape::Spline(_) => "Curves of a B-spline",
        };
        let mut text = format!(
            "{what}: {}. Tolerance: {} sixteenths of a stage unit. Leaves: {}, of {} covers each.",
            report.curves,
            self.band.tolerance(),
            report.leaves,
            self.band.pieces()
        );
        if !self.points.is_empty() {
            let Counts { on, off, refused } = Counts::of(self.points);
            text += &format!(" Points on the band: {on}. Points off it: {off}.");
            if refused > 0 {
                text += &format!(" Points refused, and not drawn: {refused}.");
            }
        }
        text
    }

    /// Every cover as a polygon, those of a leaf together; neighbouring leaves differ in colour.
    fn covers(&self, out: &mut dyn Write, frame: &Frame) -> io::Result<()> {
        let mut covers = self.band.covers().peekable();
        let mut progress = Progress::new("leaves drawn", self.band.report().leaves);
        for (number, leaf) in self.band.leaves().enumerate() {
            let colour = ["even", "odd"][number % 2];
            writeln!(
                out,
                r#"<g class="leaf {colour}"><title>leaf {number}: curve {}, node {}</title>"#,
                leaf.curve, leaf.node
            )?;
            while let Some(cover) = covers.next_if(|cover| cover.leaf == number) {
                writeln!(out, r#"<polygon class="cover" points="{}"/>"#, frame.places(&cover.vertices))?;
            }
            writeln!(out, "</g>")?;
            progress.tell(number + 1);
        }
        Ok(())
    }

    fn break_boxes(&self, out: &mut dyn Write, frame: &Frame) -> io::Result<()> {
        for b in self.band.leaves().flat_map(|leaf| leaf.boxes) {
            let corners =
                [[b.x.low, b.y.low], [b.x.high, b.y.low], [b.x.high, b.y.high], [b.x.low, b.y.high]];
            writeln!(out, r#"<polygon class="box" points="{}"/>"#, frame.places(&corners))?;
        }
        Ok(())
    }
}

/// Draws a point: a disc where it is on, a cross where it is off. One that lies beyond the frame stands at its edge.
fn point(out: &mut dyn Write, ([x, y], judgement): &Judged, frame: &Frame) -> io::Result<()> {
    let Ok(judgement) = judgement else { return Ok(()) };
    let ([across, up], inside) = frame.inside([*x, *y]);
    let beyond = if inside { "" } else { " beyond" };
    let r = frame.length(5.0);
    match judgement {
        Judgement::On { leaf, cover } => writeln!(
            out,
            r#"<circle class="point on{beyond}" cx="{across}" cy="{up}" r="{r}"><title>({x} {y}) on, record {leaf} cover {cover}</title></circle>"#
        ),
        Judgement::Off => writeln!(
            out,
            r#"<path class="point off{beyond}" d="M{} {}L{} {}M{} {}L{} {}"><title>({x} {y}) off</title></path>"#,
            across as f64 - r,
            up as f64 - r,
            across as f64 + r,
            up as f64 + r,
            across as f64 - r,
            up as f64 + r,
            across as f64 + r,
            up as f64 - r
        ),
    }
}

/// Colours that also those tell apart who see few colours. Widths are for the drawing, where a pixel is many sixteenths
/// or few.
fn style(out: &mut dyn Write, frame: &Frame) -> io::Result<()> {
    let [fine, edge, line, heavy] = [0.75, 1.5, 2.0, 2.5].map(|pixels| frame.length(pixels));
    writeln!(
        out,
        "<style>
.paper {{ fill: #ffffff }}
text {{ font: 14px sans-serif; fill: #222222 }}
.sample {{ stroke-width: 2px }}
.even {{ fill: #bcd9ee; stroke: #5b8db3 }}
.odd {{ fill: #f4dfa8; stroke: #a98a35 }}
.outline, .box, .off, .bar {{ fill: none }}
.outline, .bar {{ stroke: #111111 }}
.box {{ stroke: #7a3e9d }}
.on {{ fill: #0072b2; stroke: #ffffff }}
.off {{ stroke: #d55e00 }}
.drawing {{ stroke-linejoin: round; stroke-linecap: round }}
.drawing .cover, .drawing .on {{ stroke-width: {fine} }}
.drawing .box {{ stroke-width: {edge} }}
.drawing .outline {{ stroke-width: {line} }}
.drawing .off {{ stroke-width: {heavy} }}
.drawing .beyond {{ opacity: 0.5 }}
</style>"
    )
}

/// A text for XML: its marks escaped, and what XML does not take left out.
fn escaped(text: &str) -> String {
    let mut escaped = String::new();
    for character in text.chars() {
        match character {
            '&' => escaped.push_str("&amp;"),
            '<' => escaped.push_str("&lt;"),
            '>' => escaped.push_str("&gt;"),
            '\u{0}'..='\u{1f}' | '\u{fffe}' | '\u{ffff}' => escaped.push('\u{fffd}'),
            _ => escaped.push(character),
        }
    }
    escaped
}
