//! A hundred exchanges one after the other in one list, each against banding anew.

use differential::banding::Answer::{Accepted, Refused};
use differential::exchanging::{padded, records_of, Comparison, Exchange};
use differential::outlines::{in_range, outline, starts};
use differential::pieces::{degrees, pieces};
use differential::random::Random;

/// A curve with the ends of another, of a degree, its other points moved by up to so much from a line between the ends.
fn nudged(random: &mut Random, old: &[i32], degree: i32, by: i32) -> Option<Vec<i32>> {
    let (first, last) = ([old[1], old[2]], [old[old.len() - 2], old[old.len() - 1]]);
    let mut curve = vec![degree];
    for j in 0..=degree {
        for (from, to) in first.into_iter().zip(last) {
            let on_line =
                from + ((i64::from(to) - i64::from(from)) * i64::from(j) / i64::from(degree)) as i32;
            let moved = if j == 0 || j == degree { 0 } else { random.between(-by, by) };
            curve.push(on_line + moved);
        }
    }
    curve.iter().all(|&n| in_range(n)).then_some(curve)
}

#[test]
fn a_hundred_exchanges() {
    let seed = 1211;
    let mut comparison = Comparison::new("exchanging, chains of a hundred, seed 1211");
    let mut random = Random::new(seed);
    let mut chains = 0;
    while chains < 60 {
        let m = pieces(&mut random);
        let mut outline = outline(&mut random, degrees(m));
        let tolerance = random.between(16, 400);
        let Ok(mut list) = records_of(&outline, tolerance, m) else { continue };
        let mut given = list.len();
        list.resize(list.len() + 30 * plain::record_length(m) + random.below(50), -1);
        chains += 1;
        let mut done = 0;
        for _ in 0..1_000 {
            let starts = starts(&outline);
            let number = random.below(starts.len());
            let end = starts.get(number + 1).copied().unwrap_or(outline.len());
            let degree = random.between(1, *degrees(m).end());
            let by = random.magnitude().min(4_000);
            let Some(new) = nudged(&mut random, &outline[starts[number]..end], degree, by) else { continue };
            let curve = padded(&mut random, &new);
            let input = Exchange { outline, tolerance, m, number, curve, given };
            match comparison.exchange(&input, &list) {
                Accepted { leaves, .. } => {
                    // The comparison works on copies; here the list is carried on.
                    contour_band::exchange(&input.outline, tolerance, m, number, curve, given, &mut list)
                        .expect("it was accepted");
                    outline = input.changed();
                    given = leaves as usize * plain::record_length(m);
                    assert_eq!(Ok(&list[..given]), records_of(&outline, tolerance, m).as_deref());
                    done += 1;
                }
                Refused(7 | 8, _) => outline = input.outline,
                refused => panic!("{refused:?}"),
            }
            if done == 100 {
                break;
            }
        }
        assert_eq!(done, 100);
    }
    let tally = &comparison.tally;
    assert!(tally.leaves.iter().all(|&accepted| accepted > 500), "{tally}");
    comparison.report();
}
