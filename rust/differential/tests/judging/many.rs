//! Many points against one leaf list: short lists, lists with as many records as there are runs and more, records in any
//! order, and every refusal.

use differential::judging::Answer::{self, Off, On, Refused};
use differential::leaf_lists::{damage, leaf_list, LeafList, FARTHEST};
use differential::outlines::deepest;
use differential::random::Random;
use plain::record_length;

/// How many numbers past the lent list are looked at as well.
const BEYOND: usize = 20;

/// How many points were answered on, off and refused.
type Tally = [usize; 3];

/// What three numbers say of a point.
fn said(three: &[i64]) -> Answer {
    match *three {
        [0, 0, 0] => Off,
        [1, leaf, cover] => On { leaf: leaf as usize, cover: cover as usize },
        [number, spot, 0] => Refused(number as u32, spot as u64),
        _ => panic!("{three:?} says nothing"),
    }
}

/// Gives both engines the same lists, and compares the answers, every number of the lent list and past it, and what the
/// wrapper reads in them.
fn compare(
    leaves: &[i32],
    m: u32,
    points: &[i32],
    lent: usize,
    tally: &mut Tally,
) -> Result<usize, (u32, u64)> {
    let before: Vec<i64> = (0..(lent + BEYOND) as i64).map(|i| -1 - 7 * i).collect();
    let (mut by_proved, mut by_plain) = (before.clone(), before.clone());
    let proved = contour_band::judge_points(leaves, m, points, &mut by_proved[..lent])
        .map(|judgements| judgements.map(Answer::from).collect::<Vec<_>>())
        .map_err(|refusal| (refusal.number(), refusal.spot()));
    let plain = plain::judge_points(leaves, m, points, &mut by_plain[..lent])
        .map_err(|refusal| (refusal.number(), refusal.spot()));
    let count = proved.as_ref().map(Vec::len).map_err(|&refusal| refusal);
    assert_eq!(count, plain, "m {m}, {} numbers, {} of points, {lent} lent", leaves.len(), points.len());
    assert!(by_proved == by_plain, "the numbers differ: {leaves:?} {m} {points:?}");
    let (written, rest) = by_proved.split_at(count.map_or(0, |count| 3 * count));
    assert_eq!(rest, &before[written.len()..]);
    for (three, answer) in written.chunks_exact(3).zip(proved.unwrap_or_default()) {
        assert_eq!(said(three), answer);
        tally[match answer {
            On { .. } => 0,
            Off => 1,
            Refused(..) => 2,
        }] += 1;
    }
    count
}

/// Whether the boxes of each record lie close to each other, so that it holds few points of other records.
fn is_close(part: &LeafList) -> bool {
    part.numbers.chunks_exact(record_length(part.m)).all(|record| {
        let boxes = &record[2..];
        boxes.iter().max().expect("a number") - boxes.iter().min().expect("a number") < 1 << 22
    })
}

/// So many records of m pieces in no order, and the short lists that they are put together from.
fn long_list(random: &mut Random, m: u32, records: usize) -> (Vec<i32>, Vec<LeafList>) {
    let (mut numbers, mut parts) = (Vec::new(), Vec::new());
    while numbers.len() < record_length(m) * records {
        let part = leaf_list(random);
        if part.m == m && is_close(&part) {
            numbers.extend(&part.numbers);
            parts.push(part);
        }
    }
    numbers.truncate(record_length(m) * records);
    (numbers, parts)
}

/// Points mostly at the edges of covers, one in twenty out of range.
fn points(random: &mut Random, parts: &[LeafList], count: usize) -> Vec<i32> {
    let mut numbers = Vec::new();
    for _ in 0..count {
        let (mut x, mut y) = parts[random.below(parts.len())].point(random);
        if random.one_in(20) {
            let far = random.pick(&[FARTHEST + 1, -FARTHEST - 1, i32::MAX, i32::MIN]);
            if random.one_in(2) {
                x = far;
            } else {
                y = far;
            }
        }
        numbers.extend([x, y]);
    }
    numbers
}

/// The records of a list in another order.
fn shuffled(random: &mut Random, leaves: &[i32], m: u32) -> Vec<i32> {
    let mut records: Vec<&[i32]> = leaves.chunks_exact(record_length(m)).collect();
    for i in 1..records.len() {
        records.swap(i, random.below(i + 1));
    }
    records.concat()
}

#[test]
fn short_lists() {
    let mut random = Random::new(741);
    let mut tally = [0; 3];
    let mut empty = 0;
    for _ in 0..40_000 {
        let list = [leaf_list(&mut random)];
        let count = random.below(12);
        empty += usize::from(count == 0);
        let numbers = points(&mut random, &list, count);
        let lent = 3 * count + random.below(5);
        assert_eq!(compare(&list[0].numbers, list[0].m, &numbers, lent, &mut tally), Ok(count));
    }
    assert!(tally.iter().all(|&count| count > 5_000) && empty > 1_000, "{tally:?} {empty}");
    println!("judging, many points, short lists, seed 741: on, off, refused {tally:?}, no points {empty}");
}

/// Runs of one to four records, groups of up to 64 runs, and the counts at which one more begins.
#[test]
fn long_lists() {
    let mut random = Random::new(742);
    let mut tally = [0; 3];
    for records in [1, 2, 63, 64, 65, 127, 129, 2_047, 2_048, 2_049, 4_096, 4_097, 6_145, 8_192] {
        for m in 1..=8 {
            let (leaves, parts) = long_list(&mut random, m, records);
            let numbers = points(&mut random, &parts, 60);
            assert_eq!(compare(&leaves, m, &numbers, 180, &mut tally), Ok(60));
        }
    }
    assert!(tally.iter().all(|&count| count > 100), "{tally:?}");
    println!("judging, many points, long lists, seed 742: on, off, refused {tally:?}");
}

/// Squares apart from each other, in order and in none, with a point on each and a point between it and the next: every
/// record of a list is named once, whichever run and group it is in.
#[test]
fn each_record_is_found() {
    for (records, step) in
        [(1, 1), (64, 1), (65, 1), (2_047, 1), (2_048, 1), (2_049, 1), (4_097, 1), (1 << 20, 997)]
    {
        // A multiple of the factor has no common divisor with any of the counts.
        for factor in [1, 619] {
            let at = |k: usize| (factor * k % records) as i32;
            let square = |k: usize| [0, 1].into_iter().chain([4 * at(k), 4 * at(k) + 2, 0, 2].repeat(2));
            let leaves: Vec<i32> = (0..records).flat_map(square).collect();
            let wanted: Vec<usize> = (0..records).step_by(step).chain([records - 1]).collect();
            let points: Vec<i32> =
                wanted.iter().flat_map(|&k| [4 * at(k) + 2, 1, 4 * at(k) + 3, 1]).collect();
            let mut answers = vec![-1; 3 * points.len() / 2];
            let judged = contour_band::judge_points(&leaves, 1, &points, &mut answers);
            assert_eq!(judged.map(|judgements| judgements.len()), Ok(points.len() / 2));
            for (k, six) in wanted.into_iter().zip(answers.chunks_exact(6)) {
                assert_eq!(six, [1, k as i64, 0, 0, 0, 0], "record {k} of {records}");
            }
        }
    }
}

/// Bands whose leaves are all at the last depth, their records as banding writes them and in no order, with points at their
/// boxes and beside them.
#[test]
fn bands() {
    let mut random = Random::new(744);
    let mut tally = [0; 3];
    for (curves, m) in [(1, 3), (7, 1), (8, 3), (9, 8), (24, 3), (33, 2)] {
        let outline = deepest(&mut random, 3, curves, m);
        let length = record_length(m);
        let mut leaves = vec![0; 256 * curves * length];
        let report = contour_band::band(&outline, 3, m, &mut leaves).expect("it is accepted");
        leaves.truncate(length * report.leaves);
        let mut numbers = Vec::new();
        for _ in 0..100 {
            let start = length * random.below(leaves.len() / length) + 2 + 4 * random.below(m as usize + 1);
            let (x, y) = (leaves[start], leaves[start + 3]);
            numbers.extend([x + random.between(-2, 2), y + random.between(-2, 2)]);
        }
        assert_eq!(compare(&leaves, m, &numbers, 300, &mut tally), Ok(100));
        let leaves = shuffled(&mut random, &leaves, m);
        assert_eq!(compare(&leaves, m, &numbers, 300, &mut tally), Ok(100));
    }
    assert!(tally[0] > 200 && tally[1] > 200, "{tally:?}");
    println!("judging, many points, bands, seed 744: on, off, refused {tally:?}");
}

#[test]
fn refusals() {
    let mut random = Random::new(743);
    let (mut seen, mut tally) = ([0; 102], [0; 3]);
    for _ in 0..40_000 {
        let list = [leaf_list(&mut random)];
        let count = random.below(6);
        let mut numbers = points(&mut random, &list, count);
        let (mut leaves, mut m) = (list[0].numbers.clone(), list[0].m);
        if random.one_in(2) {
            let (mut x, mut y) = (0, 0);
            damage(&mut random, &mut leaves, &mut m, &mut x, &mut y);
        }
        if random.one_in(3) {
            numbers.push(random.magnitude());
        }
        let lent = random.below(3 * count + 4);
        if let Err((number, _)) = compare(&leaves, m, &numbers, lent, &mut tally) {
            seen[number as usize] += 1;
        }
    }
    let numbers = [8, 9, 10, 18, 101];
    assert!(numbers.iter().all(|&number| seen[number] > 500), "{seen:?}");
    assert_eq!(numbers.iter().map(|&number| seen[number]).sum::<usize>(), seen.iter().sum());
    println!(
        "judging, many points, refusals {numbers:?}, seed 743: {:?}",
        numbers.map(|number| seen[number])
    );
}
