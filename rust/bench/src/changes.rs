//! One curve of an outline exchanged there and back: the inputs.

use contour_band::{band, record_length, Refusal, CURVE_LENGTH};

/// An outline with its band, and another that differs from it in one curve.
#[derive(Debug, Clone)]
pub struct Change {
    /// The curve that differs.
    pub number: usize,
    /// The two outlines.
    pub outlines: [Vec<i32>; 2],
    /// That curve of each.
    pub curves: [[i32; CURVE_LENGTH]; 2],
    /// How many numbers the records of each have.
    pub given: [usize; 2],
    /// The records of the first, with room for those of the second.
    pub records: Vec<i32>,
}

/// The change of the first, the middle or the last curve, whose first inner control point, if it has one, is moved by some
/// hundred units; or of the middle curve to a line.
pub fn change(place: &str, outline: &[i32], tolerance: i32, m: u32) -> Option<Change> {
    let mut starts = vec![0];
    while let Some(&degree) = outline.get(starts[starts.len() - 1]) {
        starts.push(starts[starts.len() - 1] + 3 + 2 * degree as usize);
    }
    let curves = starts.len() - 1;
    let number = match place {
        "first" => 0,
        "middle" | "line" => curves / 2,
        "last" => curves - 1,
        _ => return None,
    };
    let old = &outline[starts[number]..starts[number + 1]];
    let mut new = old.to_vec();
    if place == "line" {
        new = [&[1], &old[1..3], &old[old.len() - 2..]].concat();
    } else if old[0] > 1 {
        new[3] += 100;
        new[4] -= 200;
    }
    let changed = [&outline[..starts[number]], &new, &outline[starts[number + 1]..]].concat();
    let numbers = |outline: &[i32]| match band(outline, tolerance, m, &mut []) {
        Err(Refusal::TooFewRecords { leaves }) => Some(leaves * record_length(m)),
        _ => None,
    };
    let given = [numbers(outline)?, numbers(&changed)?];
    let mut records = vec![0; given[0].max(given[1])];
    band(outline, tolerance, m, &mut records).ok()?;
    let padded = |curve: &[i32]| {
        let mut padded = [0; CURVE_LENGTH];
        padded[..curve.len()].copy_from_slice(curve);
        padded
    };
    let curves = [padded(old), padded(&new)];
    Some(Change { number, outlines: [outline.to_vec(), changed], curves, given, records })
}
