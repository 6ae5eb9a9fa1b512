//! The source of chance: splitmix64. A case depends on the seed and its number alone, so that it can be made again.

pub struct Random(u64);

impl Random {
    pub fn of_case(seed: u64, case: u64) -> Random {
        let mut of_seed = Random(seed);
        let mut of_case = Random(of_seed.next() ^ case);
        Random(of_case.next())
    }

    pub fn next(&mut self) -> u64 {
        self.0 = self.0.wrapping_add(0x9E37_79B9_7F4A_7C15);
        let mut mixed = self.0;
        mixed = (mixed ^ mixed >> 30).wrapping_mul(0xBF58_476D_1CE4_E5B9);
        mixed = (mixed ^ mixed >> 27).wrapping_mul(0x94D0_49BB_1331_11EB);
        mixed ^ mixed >> 31
    }

    /// 0 to `limit` - 1.
    pub fn below(&mut self, limit: usize) -> usize {
        (self.next() % limit as u64) as usize
    }

    /// `low` to `high`.
    pub fn between(&mut self, low: usize, high: usize) -> usize {
        low + self.below(high - low + 1)
    }

    pub fn chance(&mut self, percent: usize) -> bool {
        self.below(100) < percent
    }

    pub fn pick<T: Copy>(&mut self, from: &[T]) -> T {
        from[self.below(from.len())]
    }

    /// The index of one of the weights, each as often as it weighs.
    pub fn weighted(&mut self, weights: &[usize]) -> usize {
        let mut at = self.below(weights.iter().sum());
        for (k, &weight) in weights.iter().enumerate() {
            if at < weight {
                return k;
            }
            at -= weight;
        }
        weights.len() - 1
    }

    pub fn byte(&mut self) -> u8 {
        self.next() as u8
    }

    pub fn number(&mut self) -> u16 {
        self.next() as u16
    }

    /// An index of `count` things: often the first or the last.
    pub fn index(&mut self, count: usize) -> usize {
        match self.below(4) {
            0 => 0,
            1 => count - 1,
            _ => self.below(count),
        }
    }

    /// Bytes of one sort: noise, zeros, FFh, or noise that is dense in FFh and pack headers.
    pub fn background(&mut self, length: usize) -> Vec<u8> {
        match self.below(4) {
            0 => (0..length).map(|_| self.byte()).collect(),
            1 => vec![0x00; length],
            2 => vec![0xFF; length],
            _ => (0..length).map(|_| self.pick(&[0xFF, 0xE1, 0xE2, 0xE3, 0x00, 0x5A])).collect(),
        }
    }
}
