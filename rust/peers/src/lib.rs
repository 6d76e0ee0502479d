//! Peers beside the proved engine: flattening to T/2 against banding at T, and the nearest point against judging.
//!
//! A program of peers answers to these words:
//!
//! ```text
//! banding                    medians in microseconds, all taking turns in one run
//! judging
//! op WHO WHAT INPUT TIMES    one of them repeated, for callgrind
//! kept                       for exact.py: the farthest parameter of each flattening, with its pieces
//! ```

pub mod baseline;

use bench::{outlines, points};
use contour_band::record_length;
use std::hint::black_box;
use std::time::Instant;

/// The control points of a curve, in sixteenths.
pub type Curve = Vec<(f64, f64)>;

/// Writes the points of straight pieces that stay within a distance of curves to a list.
pub type Flatten = fn(&[Curve], f64, &mut Curve);

/// Whether a point is within a distance of some curve.
pub type Near = Box<dyn Fn(f64, f64) -> bool>;

/// What is measured beside the engine, by name.
pub struct Peers {
    /// Ways to flatten.
    pub flatten: &'static [(&'static str, Flatten)],
    /// Ways to find whether a point is within a distance of curves.
    pub nearest: &'static [(&'static str, fn(&[Curve], f64) -> Near)],
}

/// The tolerance of the 1,000 leaves that points are judged against.
const T: i32 = 188;

/// The curves of an outline of degrees 1 to 3.
pub fn curves(outline: &[i32]) -> Vec<Curve> {
    let (mut at, mut all) = (0, vec![]);
    while at < outline.len() {
        let degree = outline[at] as usize;
        let sixteenths = |k: usize| 16.0 * f64::from(outline[at + 1 + k]);
        all.push((0..=degree).map(|i| (sixteenths(2 * i), sixteenths(2 * i + 1))).collect());
        at += 2 * degree + 3;
    }
    all
}

/// A curve's point at t.
pub fn at(curve: &[(f64, f64)], t: f64) -> (f64, f64) {
    let mut row = curve.to_vec();
    while row.len() > 1 {
        row = row
            .windows(2)
            .map(|w| (w[0].0 + t * (w[1].0 - w[0].0), w[0].1 + t * (w[1].1 - w[0].1)))
            .collect();
    }
    row[0]
}

/// The square of the distance of a point from straight pieces.
fn squared_distance(flat: &[(f64, f64)], x: f64, y: f64) -> f64 {
    let piece = |ends: &[(f64, f64)]| {
        let ((ax, ay), (bx, by)) = (ends[0], ends[1]);
        let (dx, dy) = (bx - ax, by - ay);
        let length = dx * dx + dy * dy;
        let t = if length == 0.0 { 0.0 } else { (((x - ax) * dx + (y - ay) * dy) / length).clamp(0.0, 1.0) };
        let (ex, ey) = (x - ax - t * dx, y - ay - t * dy);
        ex * ex + ey * ey
    };
    flat.windows(2).map(piece).fold(f64::INFINITY, f64::min)
}

fn outline(name: &str) -> Vec<i32> {
    if name == "nominal" {
        outlines::nominal()
    } else {
        outlines::cubics()
    }
}

/// The outlines, each at each tolerance.
fn inputs() -> impl Iterator<Item = (&'static str, i32)> {
    ["cubics", "nominal"].into_iter().flat_map(|name| [3, 16, 256].map(|t| (name, t)))
}

/// A list with room for 256 leaves a curve.
fn roomy(curves: usize, m: u32) -> Vec<i32> {
    vec![0; 256 * curves * record_length(m)]
}

/// Rounds in which all take turns; their medians in microseconds.
fn medians(all: &mut [Box<dyn FnMut() + '_>], least: usize) -> Vec<f64> {
    let mut times = vec![vec![]; all.len()];
    let start = Instant::now();
    while times[0].len() < least || start.elapsed().as_millis() < 600 {
        for (own, work) in times.iter_mut().zip(all.iter_mut()) {
            let begin = Instant::now();
            work();
            own.push(begin.elapsed().as_secs_f64() * 1e6);
        }
    }
    let median = |mut own: Vec<f64>| {
        own.sort_by(f64::total_cmp);
        own[own.len() / 2]
    };
    times.into_iter().map(median).collect()
}

/// A line: the engine's time, and for each peer its time and the engine's over it.
fn print_times(what: &str, times: &[f64]) {
    print!("{what:<16} {:>9.1}", times[0]);
    times[1..].iter().for_each(|own| print!(" {own:>10.1} {:>5.2}", times[0] / own));
    println!();
}

fn print_heading(what: &str, names: impl Iterator<Item = &'static str>) {
    print!("{what:<16} {:>9}", "engine");
    names.for_each(|name| print!(" {name:>10} {:>5}", "over"));
    println!();
}

fn banding(peers: &Peers) {
    print_heading("banding", peers.flatten.iter().map(|peer| peer.0));
    for (name, t) in inputs() {
        let outline = outline(name);
        let own = curves(&outline);
        let half = f64::from(t) / 2.0;
        for m in [1, 3, 8] {
            let mut records = roomy(own.len(), m);
            if contour_band::band(&outline, t, m, &mut records).is_err() {
                println!("{name}:{t}:{m} is refused");
                continue;
            }
            let mut all: Vec<Box<dyn FnMut()>> = vec![Box::new(|| {
                _ = black_box(contour_band::band(black_box(&outline), t, m, black_box(&mut records)))
            })];
            for &(_, flatten) in peers.flatten {
                let (mut out, own) = (vec![], &own);
                all.push(Box::new(move || flatten(black_box(own), half, black_box(&mut out))));
            }
            print_times(&format!("{name}:{t}:{m}"), &medians(&mut all, 25));
        }
    }
}

/// The leaves that points are judged against, and the curves that they are of.
fn judged() -> (points::Leaves, Vec<Curve>) {
    let leaves = points::leaves(3);
    let last = leaves.records.chunks_exact(record_length(3)).map(|record| record[0]).max().unwrap_or(0);
    let mut own = curves(&outlines::cubics());
    own.truncate(last as usize + 1);
    (leaves, own)
}

fn judging(peers: &Peers) {
    let (leaves, own) = judged();
    print_heading("10,000 points", ["at once"].into_iter().chain(peers.nearest.iter().map(|peer| peer.0)));
    for (name, of) in
        [("near", points::near(&leaves)), ("beside", points::beside(&leaves)), ("far", points::far())]
    {
        let listed: Vec<i32> = of.iter().flat_map(|point| [point.0, point.1]).collect();
        let mut answers = vec![0; 3 * of.len()];
        let (records, of) = (&leaves.records, &of);
        let mut all: Vec<Box<dyn FnMut()>> = vec![
            Box::new(|| {
                of.iter().for_each(|p| _ = black_box(contour_band::judge(black_box(records), 3, p.0, p.1)))
            }),
            Box::new(|| {
                _ = contour_band::judge_points(black_box(records), 3, black_box(&listed), &mut answers)
                    .is_ok()
            }),
        ];
        for (_, build) in peers.nearest {
            let near = build(&own, f64::from(T));
            all.push(Box::new(move || of.iter().for_each(|p| _ = black_box(near(p.0.into(), p.1.into())))));
        }
        print_times(name, &medians(&mut all, 3));
    }
}

fn band_by(peers: &Peers, who: &str, input: &str, times: usize) -> Option<()> {
    let mut parts = input.split(':');
    let outline = outline(parts.next()?);
    let (t, m) = (parts.next()?.parse::<i32>().ok()?, parts.next()?.parse::<u32>().ok()?);
    let own = curves(&outline);
    let (mut records, mut out) = (roomy(own.len(), m), Vec::with_capacity(1 << 18));
    let half = f64::from(t) / 2.0;
    let flatten = peers.flatten.iter().find(|peer| peer.0 == who).map(|peer| peer.1);
    for _ in 0..times {
        match flatten {
            Some(flatten) => flatten(black_box(&own), half, black_box(&mut out)),
            None if who == "engine" => {
                _ = black_box(contour_band::band(black_box(&outline), t, m, black_box(&mut records)).ok()?)
            }
            None => return None,
        }
    }
    Some(())
}

fn judge_by(peers: &Peers, who: &str, input: &str, times: usize) -> Option<()> {
    let (leaves, own) = judged();
    let of = match input {
        "near" => points::near(&leaves),
        "beside" => points::beside(&leaves),
        "far" => points::far(),
        _ => return None,
    };
    if who == "many" {
        let listed: Vec<i32> = of.iter().cycle().take(times).flat_map(|point| [point.0, point.1]).collect();
        let mut answers = vec![0; 3 * times];
        return contour_band::judge_points(&leaves.records, 3, &listed, &mut answers).map(|_| ()).ok();
    }
    let near = peers.nearest.iter().find(|peer| peer.0 == who).map(|peer| (peer.1)(&own, f64::from(T)));
    for point in of.iter().cycle().take(times) {
        let on = match &near {
            Some(near) => near(point.0.into(), point.1.into()),
            None if who == "engine" => {
                contour_band::judge(black_box(&leaves.records), 3, point.0, point.1).is_ok()
            }
            None => return None,
        };
        black_box(on);
    }
    Some(())
}

/// 2,000 cubic curves with control points all over the stage, as an outline whose curves do not meet.
fn random() -> Vec<i32> {
    let mut state = 0x9E37_79B9_7F4A_7C15_u64;
    let mut next = || {
        state ^= state << 13;
        state ^= state >> 7;
        state ^= state << 17;
        (state >> 40) as i32 % 20_001 - 10_000
    };
    (0..2_000).flat_map(|_| std::iter::once(3).chain((0..8).map(|_| next()).collect::<Vec<_>>())).collect()
}

/// For each peer, outline and T: how many of 1,025 parameters a curve are farther than T/2 from the pieces of that curve,
/// how many curves have such a one, and the farthest, with its curve and the pieces as exact numbers.
fn kept(peers: &Peers) {
    for (who, flatten) in peers.flatten {
        for (name, t) in inputs().chain([("random", 16)]) {
            let own = curves(&if name == "random" { random() } else { outline(name) });
            let half = f64::from(t) / 2.0;
            let (mut over, mut broken, mut worst, mut pieces) = (0, 0, (0.0, 0, 0), vec![]);
            for (i, curve) in own.iter().enumerate() {
                let (mut flat, before) = (vec![], over);
                flatten(&own[i..=i], half, &mut flat);
                for k in 0..=1024 {
                    let (x, y) = at(curve, f64::from(k) / 1024.0);
                    let squared = squared_distance(&flat, x, y);
                    over += usize::from(squared > half * half);
                    if squared > worst.0 {
                        worst = (squared, i, k);
                        pieces.clone_from(&flat);
                    }
                }
                broken += usize::from(over > before);
            }
            let (of, k) = (own.len(), worst.2);
            let control: Vec<String> =
                own[worst.1].iter().map(|p| format!("{} {}", p.0 as i64, p.1 as i64)).collect();
            let pieces: Vec<String> =
                pieces.iter().map(|p| format!("{} {}", p.0.to_bits(), p.1.to_bits())).collect();
            let (control, pieces) = (control.join(" "), pieces.join(" "));
            println!("{who} {name} {t} {over} {broken} {of} {k} ; {control} ; {pieces}");
        }
    }
}

/// Answers to the words that the program was called with.
pub fn answer(peers: &Peers) {
    let words: Vec<String> = std::env::args().skip(1).collect();
    let words: Vec<&str> = words.iter().map(String::as_str).collect();
    let done = match words[..] {
        ["banding"] => Some(banding(peers)),
        ["judging"] => Some(judging(peers)),
        ["kept"] => Some(kept(peers)),
        ["op", who, "band", input, times] => {
            times.parse().ok().and_then(|times| band_by(peers, who, input, times))
        }
        ["op", who, "judge", input, times] => {
            times.parse().ok().and_then(|times| judge_by(peers, who, input, times))
        }
        _ => None,
    };
    if done.is_none() {
        eprintln!("usage: banding|judging|kept, or op WHO band|judge INPUT TIMES");
        std::process::exit(2);
    }
}
