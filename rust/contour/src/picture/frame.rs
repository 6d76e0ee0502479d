//! The part of the plane that a picture shows, and its scale.

use contour_band::Band;

/// How many pixels the longer side of the drawing has.
const LONGER_SIDE: f64 = 1_000.0;

/// How many pixels a picture is wide at least, for the words below the drawing.
const LEAST_WIDTH: f64 = 480.0;

/// The part of the plane that a picture shows: the band, with a margin.
pub struct Frame {
    left: i64,
    bottom: i64,
    width: i64,
    height: i64,
    /// Pixels for a sixteenth of a stage unit.
    scale: f64,
}

impl Frame {
    /// The frame of a band.
    pub fn of(band: &Band) -> Frame {
        let (mut low, mut high) = ([i64::MAX; 2], [i64::MIN; 2]);
        for b in band.leaves().flat_map(|leaf| leaf.boxes) {
            for (axis, bounds) in [b.x, b.y].into_iter().enumerate() {
                low[axis] = low[axis].min(bounds.low.into());
                high[axis] = high[axis].max(bounds.high.into());
            }
        }
        let margin = 16 + (high[0] - low[0]).max(high[1] - low[1]) / 12;
        let [width, height] = [0, 1].map(|axis| high[axis] - low[axis] + 2 * margin);
        let scale = LONGER_SIDE / width.max(height) as f64;
        Frame { left: low[0] - margin, bottom: low[1] - margin, width, height, scale }
    }

    /// The pixels of the picture from left to right.
    pub fn picture_width(&self) -> f64 {
        tidy((self.width as f64 * self.scale).max(LEAST_WIDTH))
    }

    /// The pixels of the drawing from top to bottom.
    pub fn picture_height(&self) -> f64 {
        tidy(self.height as f64 * self.scale)
    }

    /// So many pixels in sixteenths of a stage unit.
    pub fn length(&self, pixels: f64) -> f64 {
        tidy(pixels / self.scale)
    }

    /// So many sixteenths of a stage unit in pixels.
    pub fn pixels(&self, sixteenths: f64) -> f64 {
        tidy(sixteenths * self.scale)
    }

    /// The tag that opens the drawing: y goes up in it, and its places are sixteenths from the frame's lower left corner.
    pub fn group(&self) -> String {
        format!(
            r#"<g class="drawing" data-origin="{} {}" transform="translate({} {}) scale({} -{})">"#,
            self.left,
            self.bottom,
            tidy((self.picture_width() - self.width as f64 * self.scale).max(0.0) / 2.0),
            self.picture_height(),
            self.scale,
            self.scale
        )
    }

    /// The place of a point in the drawing.
    pub fn place(&self, [x, y]: [i32; 2]) -> [i64; 2] {
        [i64::from(x) - self.left, i64::from(y) - self.bottom]
    }

    /// The place of a point given in fractions of a sixteenth.
    pub fn place_between(&self, [x, y]: [f64; 2]) -> [f64; 2] {
        [tidy(x - self.left as f64), tidy(y - self.bottom as f64)]
    }

    /// The places of points, for a polygon.
    pub fn places(&self, points: &[[i32; 2]]) -> String {
        let place = |&point| self.place(point).map(|number| number.to_string()).join(",");
        points.iter().map(place).collect::<Vec<_>>().join(" ")
    }

    /// The place of a point or, where it lies beyond the frame, the nearest one at its edge; and whether it is inside.
    pub fn inside(&self, point: [i32; 2]) -> ([i64; 2], bool) {
        let place = self.place(point);
        let held = [place[0].clamp(0, self.width), place[1].clamp(0, self.height)];
        (held, held == place)
    }
}

/// A number to six significant digits or so: enough for any screen and any printer.
fn tidy(number: f64) -> f64 {
    let steps = if number.abs() < 1.0 { 1e6 } else { 1e3 };
    (number * steps).round() / steps
}
