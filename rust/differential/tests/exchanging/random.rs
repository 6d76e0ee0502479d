//! Random outlines, each with a curve of another random outline in the place of one of its own.

use differential::banding::Answer::{Accepted, Refused};
use differential::exchanging::{padded, records_of, Comparison, Exchange};
use differential::outlines::{join, outline, starts, tolerance};
use differential::pieces::{degrees, pieces};
use differential::random::Random;

/// The numbers of a curve of an outline.
fn curve_of(outline: &[i32], number: usize) -> &[i32] {
    let starts = starts(outline);
    &outline[starts[number]..starts.get(number + 1).copied().unwrap_or(outline.len())]
}

#[test]
fn whole() {
    let seed = 1221;
    let mut comparison = Comparison::new("exchanging, random outlines, seed 1221");
    let mut random = Random::new(seed);
    for _ in 0..40_000 {
        let m = pieces(&mut random);
        let own = outline(&mut random, degrees(m));
        let tolerance = tolerance(&mut random);
        let Ok(records) = records_of(&own, tolerance, m) else { continue };
        let curves = starts(&own).len();
        let number = random.below(curves);
        let other = outline(&mut random, degrees(m));
        let mut new = curve_of(&other, random.below(starts(&other).len())).to_vec();
        // It begins where the old one does, and mostly ends there too.
        let old = curve_of(&own, number);
        join(&mut random, &mut new, [old[1], old[2]]);
        let end = new.len() - 2;
        if number + 1 < curves && !random.one_in(8) {
            new[end..].copy_from_slice(&old[old.len() - 2..]);
        }
        let curve = padded(&mut random, &new);
        let input = Exchange { outline: own, tolerance, m, number, curve, given: records.len() };
        match comparison.into_every_length(&input, &records, &mut random) {
            Accepted { .. } | Refused(7 | 8 | 17, _) => (),
            refused => panic!("{refused:?}"),
        }
    }
    let tally = &comparison.tally;
    assert!([7, 8, 17, 23].iter().all(|&number| tally.refused[number] > 300), "{tally}");
    assert!(tally.leaves.iter().all(|&accepted| accepted > 2_000), "{tally}");
    assert!(tally.degrees.iter().flatten().all(|&accepted| accepted > 100), "{tally}");
    comparison.report();
}

/// The numbers past the new curve's degree make no difference.
#[test]
fn unread_numbers() {
    let seed = 1222;
    let mut comparison = Comparison::new("exchanging, numbers that are not read, seed 1222");
    let mut random = Random::new(seed);
    for _ in 0..4_000 {
        let m = pieces(&mut random);
        let own = outline(&mut random, degrees(m));
        let tolerance = tolerance(&mut random).max(100);
        let Ok(records) = records_of(&own, tolerance, m) else { continue };
        let number = random.below(starts(&own).len());
        let new = curve_of(&own, number).to_vec();
        let given = records.len();
        let mut input = Exchange { outline: own, tolerance, m, number, curve: [0; 13], given };
        for number in [0, 1, i32::MIN, i32::MAX, 1_048_577] {
            input.curve = [number; 13];
            input.curve[..new.len()].copy_from_slice(&new);
            assert!(matches!(comparison.exchange(&input, &records), Accepted { .. }));
        }
        input.curve = padded(&mut random, &new);
        assert!(matches!(comparison.exchange(&input, &records), Accepted { .. }));
    }
    assert!(comparison.tally.leaves[1] > 2_000, "{}", comparison.tally);
    comparison.report();
}
