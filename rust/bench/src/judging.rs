//! Judging: the table.

use crate::times::{by_turns, heading};
use bench::points::{beside, far, leaves, mixed, near, refused, Leaves, Point, LEAVES, POINTS};
use std::hint::black_box;

/// Prints the table of proved time over plain time.
pub fn run() {
    println!(
        "Judging {POINTS} points against {LEAVES} leaves. Times are medians in microseconds for all points, with the \
         least in brackets; both engines take turns."
    );
    println!("{:<32} {:>7} {:>7} {}  answers", "points", "on", "off", heading("plain"));
    for m in [3, 1, 8] {
        let leaves = leaves(m);
        row(&format!("on the band, m {m}"), &leaves, &near(&leaves));
        row(&format!("beside the band, m {m}"), &leaves, &beside(&leaves));
        row(&format!("far from the band, m {m}"), &leaves, &far());
        row(&format!("a third of each, m {m}"), &leaves, &mixed(&leaves));
        row(&format!("refused, leaves checked, m {m}"), &leaves, &refused());
    }
    println!();
    println!(
        "The same points in one call, all of which the proved engine judges with one check of the leaves."
    );
    println!("{:<32} {:>7} {:>7} {}  answers", "points", "on", "off", heading("plain"));
    for m in [3, 1, 8] {
        let leaves = leaves(m);
        list_row(&format!("on the band, m {m}"), &leaves, &near(&leaves));
        list_row(&format!("beside the band, m {m}"), &leaves, &beside(&leaves));
        list_row(&format!("far from the band, m {m}"), &leaves, &far());
    }
}

/// Times both engines on the same points and prints a line.
fn row(name: &str, leaves: &Leaves, points: &[Point]) {
    let Leaves { ref records, m } = *leaves;
    let (times, plain, proved) = by_turns(
        || {
            judge_all(points, |x, y| {
                let judged = plain::judge(black_box(records), m, x, y).ok()?;
                Some(matches!(judged, plain::Judgement::On { .. }))
            })
        },
        || {
            judge_all(points, |x, y| {
                contour_band::judge(black_box(records), m, x, y).ok().map(|judged| judged.is_on())
            })
        },
    );
    let count = |answer| plain.iter().filter(|&&is_on| is_on == Some(answer)).count();
    let same = plain == proved;
    println!(
        "{:<32} {:>7} {:>7} {}  {}",
        name,
        count(true),
        count(false),
        times,
        if same { "equal" } else { "DIFFERENT" },
    );
    assert!(same, "{name}: the engines differ");
}

/// Times both engines on the same points in one call and prints a line.
fn list_row(name: &str, leaves: &Leaves, points: &[Point]) {
    let Leaves { ref records, m } = *leaves;
    let numbers: Vec<i32> = points.iter().flat_map(|&(x, y)| [x, y]).collect();
    let (mut by_plain, mut by_proved) = (vec![-1; 3 * points.len()], vec![-1; 3 * points.len()]);
    let (times, plain, proved) = by_turns(
        || plain::judge_points(black_box(records), m, black_box(&numbers), &mut by_plain).ok(),
        || {
            let judged =
                contour_band::judge_points(black_box(records), m, black_box(&numbers), &mut by_proved);
            judged.ok().map(|judgements| judgements.len())
        },
    );
    let count = |answer| by_plain.chunks_exact(3).filter(|three| three[0] == answer).count();
    let same = plain == proved && by_plain == by_proved;
    println!(
        "{:<32} {:>7} {:>7} {}  {}",
        name,
        count(1),
        count(0),
        times,
        if same { "equal" } else { "DIFFERENT" },
    );
    assert!(same, "{name}: the engines differ");
}

/// Which of the points an engine calls on; nothing for one that it refuses.
fn judge_all(points: &[Point], is_on: impl Fn(i32, i32) -> Option<bool>) -> Vec<Option<bool>> {
    black_box(points).iter().map(|&(x, y)| is_on(x, y)).collect()
}
