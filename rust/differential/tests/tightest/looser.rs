//! Banding at a larger tolerance: what was accepted is accepted, with no more leaves, and each is a leaf at the smaller
//! tolerance or an ancestor of leaves there.

use contour_band::{band, leaves, record_length};
use differential::outlines::{outline, starts, tolerance};
use differential::pieces::{degrees, pieces};
use differential::random::Random;
use differential::tightest::{leaves_at, LEAST, WIDEST};

/// The curve and the node of each leaf, in the order of the records.
fn nodes(outline: &[i32], tolerance: i32, m: u32, count: usize) -> Vec<(i32, i32)> {
    let mut records = vec![0; count * record_length(m)];
    band(outline, tolerance, m, &mut records).expect("it is accepted");
    leaves(&records, m).map(|leaf| (leaf.curve, leaf.node)).collect()
}

/// Whether a node is another or an ancestor of it.
fn holds(above: i32, below: i32) -> bool {
    above <= below && below >> (below.ilog2() - above.ilog2()) == above
}

#[test]
fn leaves_merge() {
    let seed = 1431;
    let mut random = Random::new(seed);
    let (mut pairs, mut merged) = (0, 0);
    for _ in 0..10_000 {
        let m = pieces(&mut random);
        let outline = outline(&mut random, degrees(m));
        let small = tolerance(&mut random);
        let most = if random.one_in(2) { (2 * small).min(WIDEST) } else { WIDEST };
        let large = random.between(small, most);
        let Ok(at_small) = leaves_at(&outline, small, m) else { continue };
        let at_large = leaves_at(&outline, large, m).expect("what was accepted is accepted");
        assert!(at_large <= at_small, "{outline:?} {small} {large} {m}");
        let fine = nodes(&outline, small, m, at_small);
        let coarse = nodes(&outline, large, m, at_large);
        let mut rest = &fine[..];
        for &(curve, node) in &coarse {
            let own = rest.iter().take_while(|&&(k, below)| k == curve && holds(node, below)).count();
            assert!(own > 0, "{outline:?} {small} {large} {m} {curve} {node}");
            rest = &rest[own..];
        }
        assert!(rest.is_empty(), "{outline:?} {small} {large} {m}");
        pairs += 1;
        merged += u32::from(at_large < at_small);
    }
    println!(
        "tightest band, larger tolerances, seed {seed}: {pairs} pairs of bands, {merged} with fewer leaves"
    );
    assert!(pairs > 5_000 && merged > 1_000, "{pairs} {merged}");
}

/// At the largest tolerance no outline is refused with 7.
#[test]
fn nothing_is_too_wide_at_the_largest_tolerance() {
    let mut random = Random::new(1_432);
    for _ in 0..20_000 {
        let m = pieces(&mut random);
        let outline = outline(&mut random, degrees(m));
        let count = leaves_at(&outline, WIDEST, m).expect("it is accepted");
        assert!(count >= starts(&outline).len());
        // The curves' count of leaves never falls with the tolerance.
        assert!(leaves_at(&outline, LEAST, m).map_or(true, |most| most >= count));
    }
}
