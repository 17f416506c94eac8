//! A small generator of repeatable pseudo-random numbers (SplitMix64).

pub struct Random(u64);

impl Random {
    /// An independent stream for each index of one seed.
    pub fn nth(seed: u64, index: u64) -> Random {
        let mut first = Random(seed);
        let mixed = first.next() ^ index.wrapping_mul(0xD1B5_4A32_D192_ED03);
        let mut second = Random(mixed);
        Random(second.next())
    }

    pub fn next(&mut self) -> u64 {
        self.0 = self.0.wrapping_add(0x9E37_79B9_7F4A_7C15);
        let mut z = self.0;
        z = (z ^ (z >> 30)).wrapping_mul(0xBF58_476D_1CE4_E5B9);
        z = (z ^ (z >> 27)).wrapping_mul(0x94D0_49BB_1331_11EB);
        z ^ (z >> 31)
    }

    /// From 0 to `limit` - 1; 0 for a limit of 0.
    pub fn below(&mut self, limit: usize) -> usize {
        (self.next() % limit.max(1) as u64) as usize
    }

    /// Both ends included.
    pub fn between(&mut self, low: usize, high: usize) -> usize {
        low + self.below(high - low + 1)
    }

    pub fn chance(&mut self, percent: usize) -> bool {
        self.below(100) < percent
    }

    pub fn byte(&mut self) -> u8 {
        self.next() as u8
    }

    pub fn bytes(&mut self, count: usize) -> Vec<u8> {
        (0..count).map(|_| self.byte()).collect()
    }

    pub fn pick<'a, T>(&mut self, from: &'a [T]) -> &'a T {
        &from[self.below(from.len())]
    }
}

#[cfg(test)]
mod tests {
    use super::*;

    #[test]
    fn repeatable_and_spread() {
        let mut a = Random::nth(1, 2);
        let mut b = Random::nth(1, 2);
        let mut c = Random::nth(1, 3);
        assert_eq!(a.next(), b.next());
        assert_ne!(a.next(), c.next());
        let mut seen = [false; 10];
        for _ in 0..1000 {
            seen[a.below(10)] = true;
        }
        assert!(seen.iter().all(|&s| s));
    }
}
