//! Refusals: each alone and with others after it, and inputs damaged in several places.

use differential::banding::Answer::{Accepted, Refused};
use differential::exchanging::{numbers_of, padded, records_of, Comparison, Exchange};
use differential::outlines::{damage, outline, starts, tolerance, AWKWARD};
use differential::pieces::{degrees, pieces, WRONG};
use differential::random::Random;

/// Three curves of degrees 2, 1 and 3, each from where the one before ends.
const OUTLINE: [i32; 21] = [2, 0, 0, 40, 90, 50, 50, 1, 50, 50, 70, 70, 3, 70, 70, 1, 2, 3, 4, 5, 6];

/// The exchange of the middle one, with the old records at the front of a list that is long enough.
fn fine() -> (Exchange, Vec<i32>) {
    let (tolerance, m) = (4, 3);
    let mut list = records_of(&OUTLINE, tolerance, m).expect("it is accepted");
    let given = list.len();
    list.resize(given + 2_000, -9);
    let curve = [2, 50, 50, 90, -300, 70, 70, 8, 8, 8, 8, 8, 8];
    (Exchange { outline: OUTLINE.to_vec(), tolerance, m, number: 1, curve, given }, list)
}

/// The refusals in their order, each by one change, alone and with every later one: of the old outline 18 to 7, then 22 and
/// 23, then of the changed outline.
#[test]
fn in_their_order() {
    let mut comparison = Comparison::new("exchanging, refusals in their order");
    let changes: [(&str, fn(&mut Exchange, &mut Vec<i32>), (u32, u64)); 18] = [
        ("m", |input, _| input.m = 9, (18, 0)),
        ("the tolerance", |input, _| input.tolerance = 1, (1, 0)),
        ("no curve", |input, _| input.outline.clear(), (6, 0)),
        ("a curve too many", |input, _| input.outline = [1, 0, 0, 0, 0].repeat(4_097), (5, 20_480)),
        ("a degree", |input, _| input.outline[7] = 6, (2, 7)),
        ("m of a degree", |input, _| (input.m, input.outline[12]) = (2, 4), (20, 12)),
        ("cut short", |input, _| input.outline.truncate(20), (3, 20)),
        ("a coordinate", |input, _| input.outline[15] = 1_048_577, (4, 15)),
        ("a gap", |input, _| input.outline[14] = 71, (17, 12)),
        ("too wide", |input, _| input.outline[4] = 1_048_576, (7, 256)),
        ("no such curve", |input, _| input.number = 3, (22, 3)),
        ("other records", |_, list| list[20] += 1, (23, 20)),
        ("another count", |input, _| input.given += 1, (23, 0)),
        ("a new degree", |input, _| input.curve[0] = 0, (2, 7)),
        ("a new coordinate", |input, _| input.curve[6] = i32::MIN, (4, 13)),
        ("a gap before", |input, _| input.curve[1] += 1, (17, 7)),
        ("a gap after", |input, _| input.curve[6] += 1, (17, 14)),
        ("too wide now", |input, _| input.curve[4] = -1_048_576, (7, 512 + 256)),
    ];
    let own = fine().0.given as u64;
    for (first, (name, change, mut refused)) in changes.iter().enumerate() {
        if refused == (23, 0) {
            refused.1 = own;
        }
        let (mut input, mut list) = fine();
        change(&mut input, &mut list);
        assert_eq!(comparison.exchange(&input, &list), Refused(refused.0, refused.1), "{name}");
        // With each later change as well.
        for (later, other, _) in &changes[first + 1..] {
            let (mut both, mut listed) = fine();
            other(&mut both, &mut listed);
            change(&mut both, &mut listed);
            let answer = comparison.exchange(&both, &listed);
            assert_eq!(answer, Refused(refused.0, refused.1), "{name}, {later}");
        }
    }
    let (input, list) = fine();
    let answer = comparison.exchange(&input, &list);
    let Accepted { leaves, .. } = answer else { panic!("{answer:?}") };
    let enough = leaves as usize * 18;
    assert_eq!(comparison.exchange(&input, &list[..enough - 1]), Refused(8, leaves));
    assert_eq!(comparison.exchange(&input, &list[..enough]), answer);
    comparison.report();
}

/// Awkward numbers at every place of the outline, of the new curve and of the list; every length of the outline; every
/// curve number; m out of range.
#[test]
fn every_place() {
    let mut comparison = Comparison::new("exchanging, every place");
    let (fine, list) = fine();
    for number in AWKWARD {
        for at in 0..OUTLINE.len() {
            let mut input = fine.clone();
            input.outline[at] = number;
            comparison.exchange(&input, &list);
        }
        for at in 0..13 {
            for curve in 0..3 {
                let mut input = fine.clone();
                (input.curve[at], input.number) = (number, curve);
                comparison.exchange(&input, &list);
            }
        }
    }
    for length in 0..OUTLINE.len() {
        let mut input = fine.clone();
        input.outline.truncate(length);
        comparison.exchange(&input, &list);
    }
    for number in [3, 4, 255, 256, 257, 4_096, 1 << 32, (1 << 32) + 1, usize::MAX] {
        let input = Exchange { number, ..fine.clone() };
        assert_eq!(comparison.exchange(&input, &list), Refused(22, number as u64));
    }
    for m in WRONG {
        let input = Exchange { m, ..fine.clone() };
        assert_eq!(comparison.exchange(&input, &list), Refused(18, 0));
    }
    comparison.report();
}

#[test]
fn random() {
    let seed = 1231;
    let mut comparison = Comparison::new("exchanging, damaged inputs, seed 1231");
    let mut random = Random::new(seed);
    for _ in 0..40_000 {
        let mut m = pieces(&mut random);
        let mut own = outline(&mut random, degrees(m));
        let mut tolerance = tolerance(&mut random);
        let Ok(mut list) = records_of(&own, tolerance, m) else { continue };
        let mut given = list.len();
        let starts = starts(&own);
        let mut number = random.below(starts.len());
        let old = &own[starts[number]..starts.get(number + 1).copied().unwrap_or(own.len())];
        let mut curve = padded(&mut random, old);
        let room = list.len() + random.below(400);
        list.resize(room, -9);
        for _ in 0..random.between(1, 2) {
            let read = numbers_of(&curve).len();
            match random.below(10) {
                0 | 1 => damage(&mut random, &mut own, &mut tolerance, &mut m),
                2 => number = random.pick(&[number + 1, starts.len() - 1, starts.len(), usize::MAX]),
                3 => given = random.pick(&[given + 1, given.saturating_sub(1), 0, room, room + 1]),
                4 => curve[0] = random.between(0, 6),
                5 | 6 => curve[random.below(read)] = random.pick(&AWKWARD),
                7 => list.truncate(random.below(list.len() + 1)),
                _ if !list.is_empty() => {
                    let at = random.below(list.len());
                    list[at] = list[at].wrapping_add(random.pick(&[1, -1, 256, i32::MIN]));
                }
                _ => (),
            }
        }
        let input = Exchange { outline: own, tolerance, m, number, curve, given };
        comparison.exchange(&input, &list);
    }
    let tally = &comparison.tally;
    let met = [1, 2, 3, 4, 5, 6, 17, 18, 20, 22, 23];
    assert!(met.iter().all(|&number| tally.refused[number] > 3), "{tally}");
    assert!(tally.accepted.iter().sum::<u64>() > 2_000, "{tally}");
    comparison.report();
}
