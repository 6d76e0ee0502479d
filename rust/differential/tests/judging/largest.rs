//! The longest lists that banding writes.

use differential::curves::curves;
use differential::judging::{Answer, Band, Comparison};
use differential::leaf_lists::LeafList;
use differential::outlines::deepest;
use differential::pieces::settings;
use differential::random::Random;
use plain::record_length;

#[test]
fn the_most_leaves() {
    let mut comparison = Comparison::new("judging, the most leaves, seed 731");
    let mut random = Random::new(731);
    for (degree, m) in settings().filter(|&(degree, _)| degree >= 3) {
        let outline = deepest(&mut random, degree, 64, m);
        let band = Band::new(&outline, 3, m).expect("the outline is accepted");
        let leaves = if degree == 3 { 64 * 256 } else { 64 * 16 };
        assert_eq!(band.records.len(), record_length(m) * leaves);
        let list = LeafList::new(band.records.clone(), m);
        for _ in 0..20 {
            let (x, y) = list.point(&mut random);
            comparison.judge_band(&band, x, y);
        }
        for (p, curve) in (0..=4).cycle().zip(curves(&outline).into_iter().step_by(2)) {
            let point = curve.whole_point(p, 4).expect("quarters of these are whole");
            comparison.judge_of_curve(&band, point);
        }
        // The last number of all.
        let mut bad = list.numbers;
        let last = bad.len() - 1;
        bad[last] = i32::MAX;
        let answer = comparison.judge(&bad, m, 0, 0);
        assert_eq!(answer, Answer::Refused(10, last as u64));
    }
    comparison.report();
}
