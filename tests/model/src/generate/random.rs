//! The random source: every choice in a text comes from its seed, so that a text can be made again.

/// A small generator of 64-bit numbers (splitmix64): one addition and a mix, good from any seed.
pub struct Random {
    state: u64,
}

impl Random {
    pub fn new(seed: u64) -> Random {
        // Neighbouring seeds are spread, so that text 1 is not text 0 one step later.
        let mut random = Random {
            state: seed.wrapping_mul(0xD134_2543_DE82_EF95),
        };
        random.next();
        random
    }

    pub fn next(&mut self) -> u64 {
        self.state = self.state.wrapping_add(0x9E37_79B9_7F4A_7C15);
        let mut mixed = self.state;
        mixed = (mixed ^ (mixed >> 30)).wrapping_mul(0xBF58_476D_1CE4_E5B9);
        mixed = (mixed ^ (mixed >> 27)).wrapping_mul(0x94D0_49BB_1331_11EB);
        mixed ^ (mixed >> 31)
    }

    /// A number from 0 up to, not including, `limit`; 0 where the limit is 0.
    pub fn below(&mut self, limit: usize) -> usize {
        if limit == 0 {
            return 0;
        }
        (self.next() % limit as u64) as usize
    }

    /// A number from `low` to `high`, both included.
    pub fn between(&mut self, low: usize, high: usize) -> usize {
        low + self.below(high - low + 1)
    }

    /// True `times` in `of` times.
    pub fn chance(&mut self, times: usize, of: usize) -> bool {
        self.below(of) < times
    }

    pub fn pick<T: Copy>(&mut self, from: &[T]) -> T {
        from[self.below(from.len())]
    }

    /// The place of one of the weights, each as often as it weighs.
    pub fn weighted(&mut self, weights: &[usize]) -> usize {
        let mut rest = self.below(weights.iter().sum());
        for (place, &weight) in weights.iter().enumerate() {
            if rest < weight {
                return place;
            }
            rest -= weight;
        }
        0
    }

    /// The limit itself or a neighbour of it: most slips are one off.
    pub fn around(&mut self, limit: usize) -> usize {
        match self.below(3) {
            0 => limit.saturating_sub(1),
            1 => limit,
            _ => limit + 1,
        }
    }

    pub fn bytes(&mut self, length: usize) -> Vec<u8> {
        (0..length).map(|_| self.next() as u8).collect()
    }

    /// Bytes without a zero, for strings.
    pub fn string(&mut self, length: usize) -> Vec<u8> {
        (0..length).map(|_| self.between(1, 255) as u8).collect()
    }

    pub fn printable(&mut self, length: usize) -> Vec<u8> {
        (0..length).map(|_| self.between(32, 126) as u8).collect()
    }

    pub fn shuffle<T>(&mut self, items: &mut [T]) {
        for place in (1..items.len()).rev() {
            items.swap(place, self.below(place + 1));
        }
    }
}
