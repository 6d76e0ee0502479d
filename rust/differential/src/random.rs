//! A small generator of numbers that follow from a seed.

/// SplitMix64.
#[derive(Debug, Clone)]
pub struct Random(u64);

impl Random {
    /// The generator of a seed.
    pub fn new(seed: u64) -> Random {
        Random(seed)
    }

    /// The next 64 bits.
    pub fn bits(&mut self) -> u64 {
        self.0 = self.0.wrapping_add(0x9e37_79b9_7f4a_7c15);
        let mut z = self.0;
        z = (z ^ (z >> 30)).wrapping_mul(0xbf58_476d_1ce4_e5b9);
        z = (z ^ (z >> 27)).wrapping_mul(0x94d0_49bb_1331_11eb);
        z ^ (z >> 31)
    }

    /// A number below `count`, which is not 0.
    pub fn below(&mut self, count: usize) -> usize {
        ((u128::from(self.bits()) * count as u128) >> 64) as usize
    }

    /// A number from `low` to `high`, both included.
    pub fn between(&mut self, low: i32, high: i32) -> i32 {
        let count = (i64::from(high) - i64::from(low)) as usize + 1;
        (i64::from(low) + self.below(count) as i64) as i32
    }

    /// Whether an event of one in `count` happens.
    pub fn one_in(&mut self, count: usize) -> bool {
        self.below(count) == 0
    }

    /// One of some values.
    pub fn pick<T: Copy>(&mut self, values: &[T]) -> T {
        values[self.below(values.len())]
    }

    /// A number from 1 to 2^20, each power of two as likely as the others.
    pub fn magnitude(&mut self) -> i32 {
        let power = 1 << self.below(21);
        self.between(power, 2 * power - 1).min(1 << 20)
    }
}

#[cfg(test)]
mod tests {
    use super::*;

    #[test]
    fn the_sequence_follows_from_the_seed() {
        // The first outputs of SplitMix64 from 1234567.
        let mut random = Random::new(1_234_567);
        let first = [random.bits(), random.bits(), random.bits()];
        let known = [6_457_827_717_110_365_317, 3_203_168_211_198_807_973, 9_817_491_932_198_370_423];
        assert_eq!(first, known);
    }

    #[test]
    fn ranges_are_kept_and_their_ends_reached() {
        let mut random = Random::new(1);
        let drawn: Vec<i32> = (0..1_000).map(|_| random.between(-2, 2)).collect();
        for value in -2..=2 {
            assert!(drawn.contains(&value));
        }
        assert!(drawn.iter().all(|n| (-2..=2).contains(n)));
        assert!((0..1_000).all(|_| (1..=1 << 20).contains(&random.magnitude())));
        let whole = random.between(i32::MIN, i32::MAX);
        assert_ne!(whole, random.between(i32::MIN, i32::MAX));
    }
}
