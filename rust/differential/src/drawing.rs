//! Two boxes and a lent list to both engines, and what they answer compared.

use crate::random::Random;
use std::io::Write;

/// Numbers on each side of a lent list, which no engine may touch.
const MARGIN: usize = 20;

/// The greatest size of a box number.
pub const FARTHEST: i32 = 536_870_912;

/// A box: x low, x high, y low, y high.
pub type Numbers = [i32; 4];

/// What an engine answers: the count of vertices, or the number and the spot of its refusal.
pub type Answer = Result<usize, (u32, u64)>;

/// Compares the engines on one pair of boxes after the other, and counts.
pub struct Comparison {
    name: &'static str,
    random: Random,
    /// Pairs of boxes, each with one lent list or more.
    pub pairs: u64,
    answers: u64,
    numbers: u64,
    /// Answers that accept, by the count of vertices.
    pub drawn: [u64; 9],
    /// Answers that refuse: 12 by its spot, then 13.
    pub refused: [u64; 9],
}

impl Comparison {
    /// A comparison that reports under a name. What stands in the lent lists follows from the seed.
    pub fn new(name: &'static str, seed: u64) -> Comparison {
        let random = Random::new(seed ^ 0x5eed_0f11_5ea5_0000);
        Comparison { name, random, pairs: 0, answers: 0, numbers: 0, drawn: [0; 9], refused: [0; 9] }
    }

    /// Draws with both engines into lists of `length` numbers. Returns the answer that they share.
    ///
    /// # Panics
    ///
    /// Where an answer or a number differs, or a number that was not to be written has changed.
    pub fn draw(&mut self, first: Numbers, second: Numbers, length: usize) -> Answer {
        self.draw_into(first, second, length).0
    }

    /// Draws as [`Comparison::draw`] does. Returns the answer and the lent list afterwards.
    pub fn draw_into(&mut self, first: Numbers, second: Numbers, length: usize) -> (Answer, Vec<i32>) {
        let before: Vec<i32> = (0..length + 2 * MARGIN).map(|_| self.random.bits() as i32).collect();
        let (mut by_proved, mut by_plain) = (before.clone(), before.clone());
        let lent = MARGIN..MARGIN + length;
        let proved = contour_band::draw(first.into(), second.into(), &mut by_proved[lent.clone()])
            .map_err(|refusal| (refusal.number(), refusal.spot()));
        let plain = plain::draw(first, second, &mut by_plain[lent])
            .map_err(|refusal| (refusal.number(), refusal.spot()));
        let written = MARGIN..MARGIN + 2 * plain.unwrap_or(0);
        let stays = by_proved[..written.start] == before[..written.start]
            && by_proved[written.end..] == before[written.end..];
        assert!(
            proved == plain && by_proved == by_plain && stays,
            "{}: the engines differ, or a number changed\nboxes {first:?} {second:?}, lent numbers {length}\n\
             proved answers {proved:?} {:?}\nplain answers {plain:?} {:?}",
            self.name,
            &by_proved[MARGIN..],
            &by_plain[MARGIN..],
        );
        self.answers += 1;
        self.numbers += by_plain.len() as u64;
        match plain {
            Ok(count) => self.drawn[count] += 1,
            Err((12, spot)) => self.refused[spot as usize] += 1,
            Err(_) => self.refused[8] += 1,
        }
        (plain, by_proved[MARGIN..MARGIN + length].to_vec())
    }

    /// Prints what was compared, also where the test runner keeps a test's output to itself.
    pub fn report(&self) {
        let mut out = std::io::stdout().lock();
        writeln!(
            out,
            "{}: {} pairs, {} answers and {} numbers compared; by vertices {:?}, refused 12 by spot {:?}, 13 {}",
            self.name,
            self.pairs,
            self.answers,
            self.numbers,
            &self.drawn[1..],
            &self.refused[..8],
            self.refused[8],
        )
        .expect("standard output takes a line");
    }
}

/// A low and a high from −size to size, often equal.
fn interval(random: &mut Random, size: i32) -> [i32; 2] {
    let low = random.between(-size, size);
    let high = if random.one_in(4) { low } else { random.between(-size, size) };
    [low.min(high), low.max(high)]
}

/// A box that passes the checks, out of numbers from −size to size.
pub fn random_box(random: &mut Random, size: i32) -> Numbers {
    let [x, y] = [interval(random, size), interval(random, size)];
    [x[0], x[1], y[0], y[1]]
}

/// A second box, related to the first in one of many ways: equal, nested, touching, sharing a side
/// or a level, shifted, crossing, a point of it, or any.
pub fn related(random: &mut Random, first: Numbers, size: i32) -> Numbers {
    let [a, b, c, d] = first;
    let any = random_box(random, size);
    let inside = |random: &mut Random, low: i32, high: i32| {
        let (p, q) = (random.between(low, high), random.between(low, high));
        [p.min(q), p.max(q)]
    };
    match random.below(9) {
        0 => first,
        1 => {
            let ([x, y], [u, v]) = (inside(random, a, b), inside(random, c, d));
            [x, y, u, v]
        }
        2 => [b, b.max(any[1]), any[2], any[3]],
        3 => [any[0].min(b), b, c, any[3].max(c)],
        4 => [a, b, any[2], any[3]],
        5 => [any[0], any[1], c, d],
        6 => [a.min(any[0]), b.max(any[1]), random.between(c, d), d],
        7 => {
            let (x, y) = (random.pick(&[a, b, any[0]]), random.pick(&[c, d, any[2]]));
            [x, x, y, y]
        }
        _ => any,
    }
}
