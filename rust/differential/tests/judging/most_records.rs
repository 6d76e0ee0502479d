//! The most records that banding writes: 4,096 curves of 256 leaves each.

use differential::curves::curves;
use differential::judging::Answer::{self, On, Refused};
use differential::leaf_lists::FARTHEST;
use differential::outlines::{deepest, MOST_CURVES};
use differential::random::Random;
use plain::record_length;
use std::thread;

const M: u32 = 8;
const RECORD: usize = record_length(M);
const LEAVES: usize = 256 * MOST_CURVES;

/// What a call answers that has a stack of 64 KiB. A call's own does not grow with the outline.
fn on_a_small_stack<T: Send>(call: impl FnOnce() -> T + Send) -> T {
    thread::scope(|scope| {
        let started = thread::Builder::new().stack_size(64 << 10).spawn_scoped(scope, call);
        started.expect("the thread starts").join().expect("the call returns")
    })
}

/// What both engines answer.
fn judge(leaves: &[i32], x: i32, y: i32) -> Answer {
    let proved = on_a_small_stack(|| Answer::from(contour_band::judge(leaves, M, x, y)));
    assert_eq!(proved, Answer::from(plain::judge(leaves, M, x, y)));
    proved
}

#[test]
fn the_most_records() {
    let outline = deepest(&mut Random::new(732), 3, MOST_CURVES, M);
    let (mut records, mut by_plain) = (vec![7; RECORD * LEAVES], vec![7; RECORD * LEAVES]);
    let report =
        on_a_small_stack(|| contour_band::band(&outline, 3, M, &mut records)).expect("it is accepted");
    assert_eq!([report.curves, report.leaves, report.nodes], [4_096, 1_048_576, 2_093_056]);
    plain::band(&outline, 3, M, &mut by_plain).expect("it is accepted");
    assert!(records == by_plain, "the engines differ");
    drop(by_plain);

    // The end of the first curve, of one in the middle and of the last.
    for curve in [0, 2_048, 4_095] {
        let (x, y) = curves(&outline)[curve].whole_point(1, 1).expect("an end is whole");
        let last = 256 * curve + 255;
        let record = &records[RECORD * last..][..RECORD];
        assert_eq!(record[..2], [curve as i32, 511]);
        assert!(judge(record, x, y).is_on());
        assert!(matches!(judge(&records, x, y), On { leaf, .. } if leaf <= last));
    }
    assert_eq!(judge(&records, FARTHEST, -FARTHEST), Answer::Off);
    assert_eq!(judge(&records, FARTHEST + 1, 0), Refused(11, 0));
    // A list of points, for whose boxes the small stack has room: ends of curves and what lies beside them, far off, out of range.
    let mut random = Random::new(733);
    let mut points = vec![FARTHEST, -FARTHEST, FARTHEST + 1, 0];
    for curve in [0, 1, 2_047, 2_048, 2_049, 4_094, 4_095] {
        let (x, y) = curves(&outline)[curve].whole_point(1, 1).expect("an end is whole");
        points.extend([x, y, x + random.between(-9, 9), y + random.between(-9, 9)]);
    }
    let (mut by_proved, mut by_plain) = (vec![7; 2 * points.len()], vec![7; 2 * points.len()]);
    let judged = on_a_small_stack(|| {
        contour_band::judge_points(&records, M, &points, &mut by_proved).map(|judgements| judgements.len())
    });
    assert_eq!(judged, Ok(points.len() / 2));
    assert_eq!(plain::judge_points(&records, M, &points, &mut by_plain), Ok(points.len() / 2));
    assert_eq!(by_proved, by_plain);
    assert_eq!(by_proved[..6], [0, 0, 0, 11, 0, 0]);

    // The curve of the last record, and the last number of all.
    for (from_the_end, bad) in [(RECORD, 4_096), (1, i32::MAX)] {
        let at = RECORD * LEAVES - from_the_end;
        let kept = std::mem::replace(&mut records[at], bad);
        assert_eq!(judge(&records, 0, 0), Refused(10, at as u64));
        records[at] = kept;
    }
}
