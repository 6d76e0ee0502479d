//! Points on a slanted side of a large cover, and those next to it: no whole point is nearer to the side
//! without being on it.

use differential::curves::gcd;
use differential::judging::Comparison;
use differential::leaf_lists::FARTHEST;
use differential::pieces::pieces;
use differential::random::Random;

/// A cover from the box at the origin to the same box moved by (across, up), and points k × (a, b) +
/// e × (u, v). Here (across, up) is some multiple of (a, b), and a × v − b × u is 1: such a point is on the
/// line from the origin to (across, up) where e is 0, and one of the nearest to it where e is 1 or −1.
struct Cover {
    across: i64,
    up: i64,
    /// How far the boxes reach to the left and upwards of their lower right corner.
    widths: [i64; 2],
}

/// u and v with a × v − b × u = 1, 0 ≤ u < a and 0 < v ≤ b, for a and b without common divisor.
fn next_to(a: i64, b: i64) -> (i64, i64) {
    // Euclid's steps, with x × a ≡ r (mod b) for each remainder r.
    let (mut r, mut next_r, mut x, mut next_x) = (a, b, 1, 0);
    while next_r != 0 {
        let quotient = r / next_r;
        (r, next_r) = (next_r, r - quotient * next_r);
        (x, next_x) = (next_x, x - quotient * next_x);
    }
    let v = x.rem_euclid(b);
    // The remainder is 0 only where b is 1.
    let v = if v == 0 { b } else { v };
    ((a * v - 1) / b, v)
}

/// A number up to 2^30, mostly a large one.
fn length(random: &mut Random) -> i64 {
    let most = if random.one_in(4) { random.magnitude() } else { 2 * FARTHEST - 3 };
    i64::from(random.between(1, most))
}

/// The leaf list of a cover, with m pieces, and the point, moved into the range, turned and mirrored.
fn place(random: &mut Random, m: u32, cover: &Cover, point: [i64; 2]) -> (Vec<i32>, i32, i32) {
    let [left, high] = cover.widths;
    let first = [[-left, 0], [0, high]];
    let second = [[cover.across - left, cover.across], [cover.up, cover.up + high]];
    let (turned, exchanged) = (random.one_in(2), random.one_in(2));
    let mut coordinates = [0, 1].map(|c| {
        // From the least to the largest of the cover.
        let (low, high) = (first[c][0], second[c][1]);
        let far = i64::from(FARTHEST);
        let slack = 2 * far - (high - low);
        let by = random.below(slack as usize + 1) as i64 - far - low;
        let sign = if random.one_in(2) { 1 } else { -1 };
        let bounds = |[low, high]: [i64; 2]| {
            let ends = [sign * (low + by), sign * (high + by)];
            [ends[0].min(ends[1]) as i32, ends[0].max(ends[1]) as i32]
        };
        (bounds(first[c]), bounds(second[c]), (sign * (point[c] + by)) as i32)
    });
    if turned {
        coordinates.swap(0, 1);
    }
    let [(x_first, x_second, x), (y_first, y_second, y)] = coordinates;
    let boxes = [[x_first, y_first].concat(), [x_second, y_second].concat()];
    let at = random.below(m as usize);
    let mut leaves = vec![0, 1];
    for i in 0..=m as usize {
        leaves.extend(&boxes[usize::from((i <= at) == exchanged)]);
    }
    (leaves, x, y)
}

#[test]
fn the_nearest_points_of_a_slanted_side() {
    let seed = 751;
    let mut comparison = Comparison::new("judging, the nearest points of slanted sides, seed 751");
    let mut random = Random::new(seed);
    for _ in 0..60_000 {
        let (across, up) = (length(&mut random), length(&mut random));
        // At times with whole points between the corners.
        let parts = if random.one_in(2) { 1 } else { i64::from(random.between(1, 1_000)) };
        let [across, up] = [across, up].map(|n| (n / parts).max(1) * parts);
        let parts = gcd(across.into(), up.into()) as i64;
        let (a, b) = (across / parts, up / parts);
        let (u, v) = next_to(a, b);
        assert_eq!(a * v - b * u, 1);
        let wide = random.one_in(2);
        let widths = if wide { [[0, 1], [1, 0], [1, 1]][random.below(3)] } else { [0, 0] };
        let cover = Cover { across, up, widths };
        for e in [-1, 0, 1] {
            // Between the two corners.
            let least = i64::from(e == -1);
            let most = parts - i64::from(e == 1);
            let k = least + random.below((most - least) as usize + 1) as i64;
            let m = pieces(&mut random);
            let (leaves, x, y) = place(&mut random, m, &cover, [k * a + e * u, k * b + e * v]);
            let on = comparison.judge(&leaves, m, x, y).is_on();
            assert_eq!(on, e == 0 || wide && e == 1, "{leaves:?}, m {m}, ({x} {y})");
        }
    }
    comparison.report();
}
