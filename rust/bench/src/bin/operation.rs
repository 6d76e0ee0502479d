//! Repeats one operation of one engine on one input, so that its instructions can be counted. The script
//! `instructions` runs it under callgrind.
//!
//! `operation ENGINE OPERATION INPUT TIMES`. ENGINE is plain, proved or sampled. OPERATION and INPUT are
//! band with an outline, a number of curves or a depth where it has one, a tolerance and m, as in
//! nominal:16:3, cubics-64:16:8 and arches-3:44:3, spline:16:3 a B-spline and splined:16:3 its curves as an
//! outline; roomy with the same, and a list of as many records as are foretold; binary64, which bands an outline in
//! binary64; count with an outline, into an empty list; foretell with an outline, at any tolerance; tightest with an
//! outline, a number of leaves and m, as in cubics-64:128:3; exchange with a place, an outline, a tolerance and m, as in
//! middle/cubics-64:16:3, where the place is first, middle or last for the curve that is changed, or line for the middle
//! one made a line: there and back by turns, so TIMES is even; its engine may be anew, the proved engine's band of the
//! changed outline into an exact list, or check, an exchange that is refused with 23 at its last number; judge with the
//! place of the points and m, as in near:3, and with a number of curves where each is to have 256 leaves, as in near-4096:3;
//! points, which judges TIMES points in one call, with the same, and with -scattered behind the place or the number
//! where the records are to stand in no order, as in near-4096-scattered:3; with the place none it makes TIMES calls
//! without a point; quote with a number of records, at most 256 of a curve, and m, as in 1048576:3, and with -scattered
//! behind the number; its engine may be check, the proved engine's check of the list alone; draw with the shape of the
//! boxes. All but draw print the number of leaves, foretelling the most that it foretells, and tightest the tolerance
//! that it finds, or the largest where there is none.

use bench::points::{Leaves, Point, POINTS};
use bench::sampled::{self, Packing, M};
use bench::{changes, outlines, pairs, points};
use contour_band::{record_length, Refusal, FARTHEST};
use std::hint::black_box;
use std::process::ExitCode;

fn main() -> ExitCode {
    let arguments: Vec<String> = std::env::args().skip(1).collect();
    let arguments: Vec<&str> = arguments.iter().map(String::as_str).collect();
    let done = match arguments[..] {
        [engine, operation, input, times] => times.parse().ok().and_then(|times| match operation {
            "band" => band(engine, input, times, false),
            "roomy" => band(engine, input, times, true),
            "binary64" => binary64(engine, input, times),
            "count" => count(engine, input, times),
            "foretell" => foretell(engine, input, times),
            "tightest" => tightest(engine, input, times),
            "exchange" => exchange(engine, input, times),
            "judge" => judge(engine, input, times),
            "points" => judge_points(engine, input, times),
            "quote" => quote(engine, input, times),
            "draw" => draw(engine, input, times),
            _ => None,
        }),
        _ => None,
    };
    if done.is_none() {
        eprintln!(
            "usage: operation plain|proved|sampled|check|anew band|roomy|binary64|count|foretell|tightest|exchange|judge|\
            points|quote|draw INPUT TIMES"
        );
        return ExitCode::FAILURE;
    }
    ExitCode::SUCCESS
}

/// An input without the m at its end, and the m.
fn with_pieces(input: &str) -> Option<(&str, u32)> {
    let (rest, m) = input.rsplit_once(':')?;
    Some((rest, m.parse().ok().filter(|m| (1..=8).contains(m))?))
}

type PlainBand = fn(&[i32], i32, u32, &mut [i32]) -> Result<plain::Report, plain::Refusal>;
type ProvedBand = fn(&[i32], i32, u32, &mut [i32]) -> Result<contour_band::Report, Refusal>;

/// An outline, a tolerance or a number of leaves, and m.
fn with_tolerance(input: &str) -> Option<(Vec<i32>, i32, u32)> {
    let (rest, m) = with_pieces(input)?;
    let (name, tolerance) = rest.split_once(':')?;
    let outline = match name.split_once('-') {
        Some(("cubics", curves)) => outlines::rounds(curves.parse().ok()?),
        Some(("arches", depth)) => outlines::arches(depth.parse().ok()?),
        None if name == "nominal" => outlines::nominal(),
        None if name == "quartics" => outlines::quartics(),
        None if name == "quintics" => outlines::quintics(),
        None if name == "spline" => outlines::spline(),
        None if name == "splined" => outlines::splined(),
        _ => return None,
    };
    Some((outline, tolerance.parse().ok()?, m))
}

/// How many leaves to lend room for so that they need not be counted first: as many as are foretold, and where nothing
/// is, as many as the curves can have.
fn roomy(outline: &[i32], tolerance: i32, m: u32, curves: usize) -> Option<usize> {
    let foretold = contour_band::foretell(outline, tolerance, m, &mut vec![0; curves]).ok()?;
    Some(foretold.map_or(256 * curves, |foretold| foretold.leaves))
}

fn band(engine: &str, input: &str, times: usize, lends_more: bool) -> Option<()> {
    let (outline, tolerance, m) = with_tolerance(input)?;
    let (plain_band, proved_band): (PlainBand, ProvedBand) = if input.starts_with("spline:") {
        (plain::spline_band, contour_band::spline_band)
    } else {
        (plain::band, contour_band::band)
    };
    // An empty list asks how many leaves there are.
    let Err(Refusal::TooFewRecords { leaves }) = proved_band(&outline, tolerance, m, &mut []) else {
        return None;
    };
    let mut records = vec![0; leaves * record_length(m)];
    let report = proved_band(&outline, tolerance, m, &mut records).ok()?;
    let mut leaves = vec![0; report.curves];
    for record in records.chunks_exact(record_length(m)) {
        leaves[record[0] as usize] += 1;
    }
    if lends_more {
        records.resize(roomy(&outline, tolerance, m, report.curves)? * record_length(m), 0);
    }
    for _ in 0..times {
        let (outline, records) = (black_box(&outline[..]), black_box(&mut records[..]));
        match engine {
            "plain" => plain_band(outline, tolerance, m, records).map(|_| ()).ok()?,
            "proved" => proved_band(outline, tolerance, m, records).map(|_| ()).ok()?,
            "sampled" if m == M => sampled::band(outline, &leaves, Packing::TowardsZero, records),
            _ => return None,
        }
    }
    println!("{}", report.leaves);
    Some(())
}

/// Bands an outline in binary64. The records are those of the same outline in integers.
fn binary64(engine: &str, input: &str, times: usize) -> Option<()> {
    let (outline, tolerance, m) = with_tolerance(input)?;
    let Err(Refusal::TooFewRecords { leaves }) = contour_band::band(&outline, tolerance, m, &mut []) else {
        return None;
    };
    let mut by_integers = vec![0; leaves * record_length(m)];
    contour_band::band(&outline, tolerance, m, &mut by_integers).ok()?;
    let numbers: Vec<f64> = outline.into_iter().map(f64::from).collect();
    let mut records = vec![0; leaves * record_length(m)];
    contour_band::binary64_band(&numbers, tolerance, m, &mut records).ok()?;
    assert!(records == by_integers);
    for _ in 0..times {
        let (numbers, records) = (black_box(&numbers[..]), black_box(&mut records[..]));
        match engine {
            "plain" => plain::binary64_band(numbers, tolerance, m, records).map(|_| ()).ok()?,
            "proved" => contour_band::binary64_band(numbers, tolerance, m, records).map(|_| ()).ok()?,
            _ => return None,
        }
    }
    println!("{leaves}");
    Some(())
}

/// Counts the leaves, as banding into an empty list does.
fn count(engine: &str, input: &str, times: usize) -> Option<()> {
    let (outline, tolerance, m) = with_tolerance(input)?;
    let Err(Refusal::TooFewRecords { leaves }) = contour_band::band(&outline, tolerance, m, &mut []) else {
        return None;
    };
    for _ in 0..times {
        let outline = black_box(&outline[..]);
        match engine {
            "plain" => black_box(plain::band(outline, tolerance, m, &mut []).is_err()),
            "proved" => black_box(contour_band::band(outline, tolerance, m, &mut []).is_err()),
            _ => return None,
        };
    }
    println!("{leaves}");
    Some(())
}

fn tightest(engine: &str, input: &str, times: usize) -> Option<()> {
    let (outline, leaves, m) = with_tolerance(input)?;
    let leaves = usize::try_from(leaves).ok()?;
    let found = contour_band::tightest(&outline, m, leaves).ok()?;
    for _ in 0..times {
        let outline = black_box(&outline[..]);
        let again = match engine {
            "plain" => plain::tightest(outline, m, leaves).ok()?,
            "proved" => contour_band::tightest(outline, m, leaves).ok()?,
            _ => return None,
        };
        assert_eq!(again, found);
    }
    println!("{}", found.unwrap_or(1_048_576));
    Some(())
}

/// Exchanges one curve and exchanges it back, by turns, so many times in all; or bands the outline that results anew; or
/// gives one number too few, which is refused with 23 after the whole comparison.
fn exchange(engine: &str, input: &str, times: usize) -> Option<()> {
    let (place, rest) = input.split_once('/')?;
    let (outline, tolerance, m) = with_tolerance(rest)?;
    let mut change = changes::change(place, &outline, tolerance, m)?;
    for turn in 0..times {
        let (from, to) = (turn % 2, (turn + 1) % 2);
        let (outline, number, given) =
            (black_box(&change.outlines[from][..]), change.number, change.given[from]);
        let (curve, records) = (black_box(change.curves[to]), black_box(&mut change.records[..]));
        match engine {
            "plain" => {
                plain::exchange(outline, tolerance, m, number, curve, given, records).map(|_| ()).ok()?
            }
            "proved" => contour_band::exchange(outline, tolerance, m, number, curve, given, records)
                .map(|_| ())
                .ok()?,
            "anew" => {
                let (outline, room) = (black_box(&change.outlines[to][..]), &mut records[..change.given[to]]);
                contour_band::band(outline, tolerance, m, room).map(|_| ()).ok()?
            }
            // The records stay those of the first outline.
            "check" => {
                let (first, given) = (black_box(&change.outlines[0][..]), change.given[0] - 1);
                let refused = contour_band::exchange(first, tolerance, m, number, curve, given, records);
                assert_eq!(refused, Err(Refusal::OtherRecords { index: given }));
            }
            _ => return None,
        }
    }
    println!("{}", change.given[1] / record_length(m));
    Some(())
}

fn foretell(engine: &str, input: &str, times: usize) -> Option<()> {
    let (outline, tolerance, m) = with_tolerance(input)?;
    let mut depths = vec![0; outline.len()];
    let foretold = contour_band::foretell(&outline, tolerance, m, &mut depths).ok()?;
    for _ in 0..times {
        let (outline, depths) = (black_box(&outline[..]), black_box(&mut depths[..]));
        match engine {
            "plain" => plain::foretell(outline, tolerance, m, depths).map(|_| ()).ok()?,
            "proved" => contour_band::foretell(outline, tolerance, m, depths).map(|_| ()).ok()?,
            _ => return None,
        }
    }
    println!("{}", foretold.map_or(0, |foretold| foretold.leaves));
    Some(())
}

/// The leaves and the points of an input, and the place of the points.
fn judged(input: &str) -> Option<(Leaves, Vec<Point>, &str)> {
    let (name, m) = with_pieces(input)?;
    let (name, scattered) = name.strip_suffix("-scattered").map_or((name, false), |name| (name, true));
    let (place, mut leaves) = match name.split_once('-') {
        Some((place, curves)) => (place, points::many(curves.parse().ok()?)),
        None => (name, points::leaves(m)),
    };
    let points = match place {
        "near" => points::near(&leaves),
        "beside" => points::beside(&leaves),
        "far" => points::far(),
        "refused" => points::refused(),
        "none" => Vec::new(),
        _ => return None,
    };
    if scattered {
        leaves.scatter();
    }
    (leaves.m == m).then_some((leaves, points, place))
}

/// Judges one point at a time.
fn judge(engine: &str, input: &str, times: usize) -> Option<()> {
    let (leaves, points, place) = judged(input)?;
    let m = leaves.m;
    for &(x, y) in points.iter().cycle().take(times) {
        let leaves = black_box(&leaves.records[..]);
        let refused = match engine {
            "plain" => plain::judge(leaves, m, x, y).is_err(),
            "proved" => contour_band::judge(leaves, m, x, y).is_err(),
            _ => return None,
        };
        assert_eq!(refused, place == "refused");
    }
    println!("{}", leaves.records.len() / record_length(m));
    Some(())
}

/// Judges so many points in one call, or makes so many calls without a point.
fn judge_points(engine: &str, input: &str, times: usize) -> Option<()> {
    let (leaves, points, place) = judged(input)?;
    let m = leaves.m;
    let (calls, count) = if place == "none" { (times, 0) } else { (1, times) };
    // The lists are those of all points, so that another count of points changes the call alone.
    let numbers: Vec<i32> = points.into_iter().flat_map(|(x, y)| [x, y]).collect();
    let mut answers = vec![0; 3 * POINTS];
    for _ in 0..calls {
        let (leaves, numbers) = (black_box(&leaves.records[..]), black_box(numbers.get(..2 * count)?));
        let judged = match engine {
            "plain" => plain::judge_points(leaves, m, numbers, &mut answers).ok()?,
            "proved" => contour_band::judge_points(leaves, m, numbers, &mut answers).ok()?.len(),
            _ => return None,
        };
        assert_eq!(judged, numbers.len() / 2);
        black_box(&mut answers);
    }
    println!("{}", leaves.records.len() / record_length(m));
    Some(())
}

/// Quotes one list, or only checks it: judging a point that is out of range checks the list and does nothing more.
fn quote(engine: &str, input: &str, times: usize) -> Option<()> {
    let (name, m) = with_pieces(input)?;
    let (count, scattered) = name.strip_suffix("-scattered").map_or((name, false), |name| (name, true));
    let mut leaves = points::flat(count.parse().ok()?, m);
    if scattered {
        leaves.scatter();
    }
    for _ in 0..times {
        let leaves = black_box(&leaves.records[..]);
        let answered = match engine {
            "plain" => plain::quote(leaves, m).is_ok(),
            "proved" => contour_band::quote(leaves, m).is_ok(),
            "check" => contour_band::judge(leaves, m, FARTHEST + 1, 0) == Err(Refusal::PointX),
            _ => return None,
        };
        assert!(answered);
    }
    println!("{}", leaves.records.len() / record_length(m));
    Some(())
}

/// Draws one pair of boxes at a time.
fn draw(engine: &str, input: &str, times: usize) -> Option<()> {
    let pairs = match input {
        "neighbours" => pairs::neighbours(),
        "crossing" => pairs::crossing(),
        "nested" => pairs::nested(),
        "single" => pairs::single(),
        _ => return None,
    };
    let mut vertices = [0; 16];
    for &[first, second] in pairs.iter().cycle().take(times) {
        let (first, second, vertices) = (black_box(first), black_box(second), black_box(&mut vertices));
        match engine {
            "plain" => plain::draw(first, second, vertices).ok()?,
            "proved" => contour_band::draw(first.into(), second.into(), vertices).ok()?,
            _ => return None,
        };
    }
    Some(())
}
