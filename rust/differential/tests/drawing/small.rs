//! Every pair of boxes with numbers out of a few: all equal, nested, touching, crossing and flat ones.

use differential::drawing::{Comparison, FARTHEST};

fn every_pair(name: &'static str, seed: u64, values: &[i32]) {
    let mut comparison = Comparison::new(name, seed);
    let spans: Vec<(i32, i32)> = values
        .iter()
        .flat_map(|&low| values.iter().map(move |&high| (low, high)))
        .filter(|(low, high)| low <= high)
        .collect();
    for &(a, b) in &spans {
        for &(c, d) in &spans {
            for &(e, f) in &spans {
                for &(g, h) in &spans {
                    comparison.pairs += 1;
                    comparison.draw([a, b, c, d], [e, f, g, h], 17).expect("the boxes pass the checks");
                }
            }
        }
    }
    // Seven vertices never occur.
    assert!([1, 2, 3, 4, 5, 6, 8].iter().all(|&count| comparison.drawn[count] > 0));
    assert_eq!(comparison.drawn[7], 0);
    comparison.report();
}

#[test]
fn small_numbers() {
    every_pair("drawing, every pair of boxes from -2 to 2", 311, &[-2, -1, 0, 1, 2]);
}

#[test]
fn ends_of_the_range() {
    every_pair("drawing, every pair at the ends of the range", 312, &[-FARTHEST, 1 - FARTHEST, 0, FARTHEST]);
}
