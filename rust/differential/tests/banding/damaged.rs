//! Damaged outlines: each refusal, every two that can be had together in every order of places, and
//! extreme numbers everywhere.

use differential::banding::Answer::{self, Accepted, Refused};
use differential::banding::Comparison;
use differential::outlines::{starts, AWKWARD, EDGE, MOST_CURVES};
use differential::pieces::WRONG;
use plain::record_length;
use std::collections::BTreeSet;

/// A fault and where it is planted. Places are numbers of curves.
#[derive(Debug, Clone, Copy, PartialEq, Eq, PartialOrd, Ord)]
enum Fault {
    /// 18: so many pieces.
    Pieces(u32),
    /// 1: this tolerance.
    Tolerance(i32),
    /// 6: no number at all.
    Empty,
    /// 5: so many curves.
    Curves(usize),
    /// 2: this degree.
    Degree(usize, i32),
    /// 20: a curve of this degree, 4 or 5, where m is below 3.
    High(usize, i32),
    /// 3: so many numbers of the last curve are left.
    Cut(usize),
    /// 4: at this number of the curve, 1 to its length, this coordinate.
    Coordinate(usize, usize, i32),
    /// 17: this first point, from the end of the curve before.
    Gap(usize, [i32; 2]),
    /// 7: a curve of this degree, 3 to 5, that is too wide after its last halving.
    Wide(usize, i32),
    /// 8: a list without room, empty or one number short.
    Lent(bool),
}

use Fault::*;

impl Fault {
    fn number(self) -> u32 {
        match self {
            Pieces(_) => 18,
            Tolerance(_) => 1,
            Degree(..) => 2,
            Cut(_) => 3,
            Coordinate(..) => 4,
            Curves(_) => 5,
            Empty => 6,
            Wide(..) => 7,
            Lent(_) => 8,
            Gap(..) => 17,
            High(..) => 20,
        }
    }
}

/// Every fault's number.
const NUMBERS: [u32; 11] = [1, 2, 3, 4, 5, 6, 7, 8, 17, 18, 20];

/// Curves that are accepted at every tolerance from 3 with every m, each from where the one before ends; the first is
/// from where the last ends.
const LOW: [&[i32]; 4] = [
    &[3, 0, 0, 10, 30, 20, 30, 30, 0],
    &[1, 30, 0, 40, 7],
    &[2, 40, 7, 90, 300, -20, 5],
    &[3, -20, 5, 800, -700, -600, 500, 0, 0],
];

/// The like of every degree, with every m from 3.
const ALL: [&[i32]; 5] = [
    &[4, 0, 0, 20, 30, 30, 0, 9, 12, 30, 0],
    &[1, 30, 0, 40, 7],
    &[5, 40, 7, 30, 20, 25, 0, 0, -9, 9, 9, -20, 5],
    &[2, -20, 5, 90, 300, 50, 0],
    &[3, 50, 0, 800, -700, -600, 500, 0, 0],
];

/// The curves that outlines with m pieces are made of.
fn of_pieces(m: u32) -> &'static [&'static [i32]] {
    if m < 3 {
        &LOW
    } else {
        &ALL
    }
}

/// The curve at a place of an outline.
fn curve_at(curves: &[&'static [i32]], place: usize) -> &'static [i32] {
    curves[place % curves.len()]
}

/// A curve of a degree with the ends of another, and inner points far above.
fn wide(curve: &[i32], degree: i32) -> Vec<i32> {
    let ([_, x, y, ..], [.., end_x, end_y]) = (curve, curve) else { panic!("a curve has two points") };
    let inner = [*x, EDGE].repeat(degree as usize - 1);
    [&[degree, *x, *y][..], &inner, &[*end_x, *end_y]].concat()
}

/// An outline with faults planted, and the answer that the documents' table gives for it.
struct Planted {
    outline: Vec<i32>,
    tolerance: i32,
    m: u32,
    room: Room,
    expected: Option<(u32, u64)>,
}

#[derive(Debug, Clone, Copy, PartialEq, Eq)]
enum Room {
    Enough,
    OneShort,
    None,
}

/// Plants faults in an outline of `count` curves and m pieces, or says that they cannot be had together.
fn plant(count: usize, m: u32, faults: &[Fault]) -> Option<Planted> {
    let empty = faults.contains(&Empty);
    if empty && faults.iter().any(|fault| !matches!(fault, Empty | Tolerance(_) | Pieces(_))) {
        return None;
    }
    let (mut count, mut tolerance, mut room) = (if empty { 0 } else { count }, 3, Room::Enough);
    for &fault in faults {
        match fault {
            Tolerance(bad) => tolerance = bad,
            Curves(many) => count = many,
            Lent(one_short) => room = if one_short { Room::OneShort } else { Room::None },
            _ => {}
        }
    }
    let curves = damaged(of_pieces(m), count, faults)?;
    let m =
        faults.iter().find_map(|fault| if let Pieces(bad) = fault { Some(*bad) } else { None }).unwrap_or(m);
    let outline = curves.concat();
    let expected = first(&curves, faults, outline.len());
    Some(Planted { outline, tolerance, m, room, expected })
}

/// So many curves with the faults that stand in one of them.
fn damaged(of: &[&'static [i32]], count: usize, faults: &[Fault]) -> Option<Vec<Vec<i32>>> {
    let mut curves: Vec<Vec<i32>> = (0..count).map(|i| curve_at(of, i).to_vec()).collect();
    // A curve gets its degree before anything else in it is damaged, and is cut before its degree is damaged.
    let mut faults = faults.to_vec();
    faults.sort_by_key(|fault| match fault {
        Wide(..) | High(..) => 0,
        Gap(..) => 1,
        Coordinate(..) => 2,
        Cut(_) => 3,
        _ => 4,
    });
    for &fault in &faults {
        match fault {
            Wide(at, degree) | High(at, degree) => {
                // Not two of them at one place.
                let curve = curves.get_mut(at).filter(|curve| *curve == curve_at(of, at))?;
                *curve = wide(curve, degree);
            }
            Gap(at, [x, y]) => {
                let [.., end_x, end_y] = curve_at(of, at - 1) else { return None };
                curves.get_mut(at)?.get_mut(1..3)?.copy_from_slice(&[end_x + x, end_y + y]);
            }
            Coordinate(at, number, coordinate) => *curves.get_mut(at)?.get_mut(number)? = coordinate,
            Cut(left) => {
                let last = curves.last_mut().filter(|last| left < last.len())?;
                last.truncate(left);
            }
            Degree(at, degree) => *curves.get_mut(at)?.first_mut()? = degree,
            _ => {}
        }
    }
    // A coordinate that was cut away or damaged once more is no fault of the outline.
    let stands = |fault: &Fault| match *fault {
        Coordinate(at, number, coordinate) => curves[at].get(number) == Some(&coordinate),
        _ => true,
    };
    faults.iter().all(stands).then_some(curves)
}

/// The refusal that the table names first. That of 8 is left open: its spot is a count.
fn first(curves: &[Vec<i32>], faults: &[Fault], length: usize) -> Option<(u32, u64)> {
    let has = |wanted: &dyn Fn(&Fault) -> bool| faults.iter().any(wanted);
    if has(&|f| matches!(f, Pieces(_))) {
        return Some((18, 0));
    }
    if has(&|f| matches!(f, Tolerance(_))) {
        return Some((1, 0));
    }
    if has(&|f| matches!(f, Empty)) {
        return Some((6, 0));
    }
    let mut index = 0;
    for (at, curve) in curves.iter().enumerate() {
        if at == MOST_CURVES {
            return Some((5, index as u64));
        }
        if has(&|f| matches!(f, Degree(place, _) if *place == at)) {
            return Some((2, index as u64));
        }
        if has(&|f| matches!(f, High(place, _) if *place == at)) {
            return Some((20, index as u64));
        }
        if at + 1 == curves.len() && has(&|f| matches!(f, Cut(_))) {
            return Some((3, length as u64));
        }
        let bad = faults.iter().filter_map(|f| match f {
            Coordinate(place, number, _) if *place == at => Some(index + number),
            _ => None,
        });
        if let Some(bad) = bad.min() {
            return Some((4, bad as u64));
        }
        if has(&|f| matches!(f, Gap(place, _) if *place == at)) {
            return Some((17, index as u64));
        }
        index += curve.len();
    }
    let wide = faults.iter().filter_map(|f| match f {
        Wide(place, degree) => Some(512 * place + if *degree == 3 { 256 } else { 16 }),
        _ => None,
    });
    wide.min().map(|spot| (7, spot as u64))
}

/// Compares the engines on planted faults, and the answer with the table's.
fn check(comparison: &mut Comparison, planted: &Planted) {
    comparison.tally.outlines += 1;
    let Planted { outline, tolerance, m, room, expected } = planted;
    let mut band = |length| comparison.band(outline, *tolerance, *m, length);
    let empty = band(0);
    let answer: Answer = match (room, empty) {
        (Room::OneShort, Refused(8, leaves)) => band(record_length(*m) * leaves as usize - 1),
        (Room::Enough, Refused(8, leaves)) => band(record_length(*m) * leaves as usize),
        (Room::OneShort, _) => band(17),
        (Room::Enough, _) => band(18 * 300),
        (Room::None, _) => empty,
    };
    let right = match (*expected, answer) {
        (Some((number, spot)), answer) => answer == Refused(number, spot),
        (None, Refused(8, leaves)) => *room != Room::Enough && leaves > 0,
        (None, Accepted { .. }) => *room == Room::Enough,
        (None, Refused(..)) => false,
    };
    assert!(
        right,
        "outline {outline:?}, tolerance {tolerance}, m {m}, {room:?}: {answer:?}, not {expected:?}"
    );
}

/// Faults at every place of an outline of `count` curves with m pieces.
fn faults(count: usize, places: &[usize], m: u32) -> Vec<Fault> {
    let of = of_pieces(m);
    let mut faults = vec![Empty, Lent(true), Lent(false)];
    faults.extend([i32::MIN, -1, 0, 1, EDGE + 1, i32::MAX].map(Tolerance));
    faults.extend(WRONG.map(Pieces));
    faults.extend([MOST_CURVES + 1, MOST_CURVES + 2].map(Curves));
    faults.extend((1..13).map(Cut));
    for &at in places {
        faults.extend([i32::MIN, -1, 0, 6, i32::MAX].map(|degree| Degree(at, degree)));
        let length = curve_at(of, at).len();
        for number in [1, 2, length - 2, length - 1] {
            for coordinate in [i32::MIN, -EDGE - 1, EDGE + 1, i32::MAX] {
                faults.push(Coordinate(at, number, coordinate));
            }
        }
        if at > 0 {
            // The last is the first point of the curve before.
            let before = curve_at(of, at - 1);
            let [_, first @ .., end_x, end_y] = before else { panic!("a curve has points") };
            let back = [first[0] - end_x, first[1] - end_y];
            faults.extend([[1, 0], [-1, 0], [0, 1], [0, -1], [7, -9], back].map(|by| Gap(at, by)));
        }
        faults.push(Wide(at, 3));
        faults.extend([4, 5].map(|degree| if m < 3 { High(at, degree) } else { Wide(at, degree) }));
    }
    faults.retain(|fault| !matches!(fault, Curves(curves) if *curves <= count));
    faults
}

#[test]
fn every_fault_alone() {
    let mut comparison = Comparison::new("banding, every fault alone", 501);
    for (m, (count, places)) in (1..=8).flat_map(|m| {
        [(5, &[0, 1, 2, 3, 4][..]), (1, &[0]), (64, &[0, 1, 33, 62, 63])].map(|outline| (m, outline))
    }) {
        check(&mut comparison, &plant(count, m, &[]).unwrap());
        for fault in faults(count, places, m) {
            if let Some(planted) = plant(count, m, &[fault]) {
                let expected = planted.expected.map_or(8, |(number, _)| number);
                assert_eq!(expected, fault.number());
                check(&mut comparison, &planted);
            }
        }
    }
    assert!(NUMBERS.iter().all(|&number| comparison.tally.refused[number] > 0));
    comparison.report();
}

#[test]
fn every_two_faults() {
    let mut comparison = Comparison::new("banding, every two faults", 502);
    let mut pairs = BTreeSet::new();
    // Five curves, and one or two too many with faults before, in and after the first of these.
    let outlines = [(5, &[0, 1, 2, 3, 4][..]), (MOST_CURVES, &[0, 1, 4_094, 4_095, 4_096, 4_097])];
    for (pieces, (count, places)) in [1..=2, 3..=8].into_iter().flat_map(|m| outlines.map(|o| (m.clone(), o)))
    {
        let faults = faults(count, places, *pieces.start());
        // Each m in turn.
        let mut turns = pieces.cycle();
        for &one in &faults {
            for &other in &faults {
                // The long outlines are for 5 only.
                let many = matches!(one, Curves(_)) || matches!(other, Curves(_));
                if one == other || (count == MOST_CURVES) != many {
                    continue;
                }
                let m = turns.next().expect("a cycle has no end");
                if let Some(planted) = plant(count, m, &[one, other]) {
                    check(&mut comparison, &planted);
                    let (a, b) = (one.number(), other.number());
                    pairs.insert((a.min(b), a.max(b)));
                }
            }
        }
    }
    for one in NUMBERS {
        for other in NUMBERS.into_iter().filter(|&other| one < other) {
            // An empty outline has no other fault than its tolerance and its m.
            let together = [(1, 6), (6, 18)].contains(&(one, other)) || (one != 6 && other != 6);
            assert_eq!(pairs.contains(&(one, other)), together, "{one} with {other}");
        }
    }
    // The faults that can stand at two places.
    assert!([(2, 2), (4, 4), (7, 7), (17, 17), (20, 20)].iter().all(|twice| pairs.contains(twice)));
    comparison.report();
}

/// Where a coordinate of a point between two curves stands a second time.
fn other_side(outline: &[i32], at: usize) -> Option<usize> {
    starts(outline).into_iter().skip(1).find_map(|start| match at as isize - start as isize {
        -2 | -1 => Some(at + 3),
        1 | 2 => Some(at - 3),
        _ => None,
    })
}

#[test]
fn awkward_numbers_everywhere() {
    let mut comparison = Comparison::new("banding, awkward numbers everywhere", 503);
    for (tolerance, pieces) in
        AWKWARD.into_iter().chain([44, 700]).flat_map(|tolerance| [(tolerance, 1..=2), (tolerance, 3..=8)])
    {
        let outline = of_pieces(*pieces.start()).concat();
        let mut turns = pieces.cycle();
        for at in 0..outline.len() {
            for number in AWKWARD {
                let mut outline = outline.clone();
                let m = turns.next().expect("a cycle has no end");
                let same = other_side(&outline, at);
                outline[at] = number;
                comparison.tally.outlines += 1;
                comparison.band_into_every_length(&outline, tolerance, m);
                if let Some(same) = same {
                    outline[same] = number;
                    comparison.tally.outlines += 1;
                    comparison.band_into_every_length(&outline, tolerance, m);
                }
                outline.truncate(at + 1);
                comparison.tally.outlines += 1;
                comparison.band_into_every_length(&outline, tolerance, m);
            }
        }
    }
    comparison.report();
}

#[test]
fn every_length_of_an_outline() {
    let mut comparison = Comparison::new("banding, every length of an outline", 504);
    for m in 1..=8 {
        let outline: Vec<i32> = (0..70).flat_map(|i| curve_at(of_pieces(m), i)).copied().collect();
        for length in 0..=outline.len() {
            comparison.tally.outlines += 1;
            comparison.band_into_every_length(&outline[..length], 44, m);
        }
    }
    comparison.report();
}
