//! Drawn numbers: xorshift64*, the same on every run.

pub struct Random(u64);

impl Random {
    pub fn new(seed: u64) -> Random {
        let mut random = Random(seed.wrapping_mul(0x9E37_79B9_7F4A_7C15) | 1);
        for _ in 0..8 {
            random.word();
        }
        random
    }

    pub fn word(&mut self) -> u64 {
        self.0 ^= self.0 >> 12;
        self.0 ^= self.0 << 25;
        self.0 ^= self.0 >> 27;
        self.0.wrapping_mul(0x2545_F491_4F6C_DD1D)
    }

    /// A number from 0 to `limit` - 1.
    pub fn below(&mut self, limit: usize) -> usize {
        (((self.word() >> 32) * limit as u64) >> 32) as usize
    }

    /// A number from `low` to `high`, both included.
    pub fn between(&mut self, low: usize, high: usize) -> usize {
        low + self.below(high - low + 1)
    }

    /// A number from `low` to `high`, both included, and every second time `low` itself.
    pub fn low_or_between(&mut self, low: usize, high: usize) -> usize {
        if self.one_in(2) {
            low
        } else {
            self.between(low, high)
        }
    }

    /// True once in so many times.
    pub fn one_in(&mut self, times: usize) -> bool {
        self.below(times) == 0
    }

    pub fn byte(&mut self) -> u8 {
        self.below(256) as u8
    }

    pub fn bytes(&mut self, length: usize) -> Vec<u8> {
        (0..length).map(|_| self.byte()).collect()
    }

    pub fn pick<T: Copy>(&mut self, from: &[T]) -> T {
        from[self.below(from.len())]
    }

    /// Each unit of a set, once in so many times.
    pub fn part(&mut self, of: u64, times: usize) -> u64 {
        (0..64).filter(|u| of >> u & 1 == 1 && self.one_in(times)).map(|u| 1 << u).sum()
    }

    /// So many units of a set, or all if it has fewer.
    pub fn some(&mut self, count: usize, of: u64) -> u64 {
        let mut units: Vec<u32> = (0..64).filter(|u| of >> u & 1 == 1).collect();
        self.shuffle(&mut units);
        units.iter().take(count).map(|u| 1 << u).sum()
    }

    pub fn shuffle<T>(&mut self, list: &mut [T]) {
        for i in (1..list.len()).rev() {
            list.swap(i, self.below(i + 1));
        }
    }
}
