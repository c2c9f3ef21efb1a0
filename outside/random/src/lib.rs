//! Random numbers from a fixed seed (splitmix64): the same seed gives the same run everywhere.
#![forbid(unsafe_code)]

use std::cell::Cell;

pub struct Random(Cell<u64>);

impl Random {
    pub fn new(seed: u64) -> Random {
        Random(Cell::new(seed))
    }

    pub fn draw(&self) -> u64 {
        self.0.set(self.0.get().wrapping_add(0x9e37_79b9_7f4a_7c15));
        let z = self.0.get();
        let z = (z ^ (z >> 30)).wrapping_mul(0xbf58_476d_1ce4_e5b9);
        let z = (z ^ (z >> 27)).wrapping_mul(0x94d0_49bb_1331_11eb);
        z ^ (z >> 31)
    }

    /// 0 to n-1.
    pub fn below(&self, n: usize) -> usize {
        (self.draw() % n as u64) as usize
    }

    /// low to high, both included.
    pub fn between(&self, low: i64, high: i64) -> i64 {
        let width = (high - low) as u64 + 1;
        low + (self.draw() % width) as i64
    }

    /// True in that many of a hundred cases.
    pub fn percent(&self, hundredths: u64) -> bool {
        self.draw() % 100 < hundredths
    }

    pub fn pick<T: Copy>(&self, from: &[T]) -> T {
        from[self.below(from.len())]
    }

    pub fn bytes(&self, length: usize) -> Vec<u8> {
        (0..length).map(|_| self.draw() as u8).collect()
    }
}

#[cfg(test)]
mod tests {
    use super::Random;

    /// The published first values of splitmix64 for seed 1234567.
    #[test]
    fn splitmix64() {
        let random = Random::new(1234567);
        assert_eq!(random.draw(), 6457827717110365317);
        assert_eq!(random.draw(), 3203168211198807973);
    }

    #[test]
    fn between_reaches_both_ends() {
        let random = Random::new(1);
        let drawn: Vec<i64> = (0..100).map(|_| random.between(-1, 1)).collect();
        assert!(drawn.contains(&-1) && drawn.contains(&0) && drawn.contains(&1));
        assert!(drawn.iter().all(|x| (-1..=1).contains(x)));
    }
}
