//! A small seeded generator (splitmix64), the same on every machine.

/// The generator's state.
#[derive(Clone, Debug)]
pub struct Random(u64);

impl Random {
    /// Starts from a seed and a stream number, so that each recording can be made alone.
    pub fn new(seed: u64, stream: u64) -> Random {
        let mut random = Random(seed);
        random.0 ^= random.u64().wrapping_add(stream).wrapping_mul(0xD134_2543_DE82_EF95);
        random
    }

    /// Any 64-bit number; all others are made from these.
    pub fn u64(&mut self) -> u64 {
        self.0 = self.0.wrapping_add(0x9E37_79B9_7F4A_7C15);
        let mut mixed = self.0;
        mixed = (mixed ^ (mixed >> 30)).wrapping_mul(0xBF58_476D_1CE4_E5B9);
        mixed = (mixed ^ (mixed >> 27)).wrapping_mul(0x94D0_49BB_1331_11EB);
        mixed ^ (mixed >> 31)
    }

    /// Any 32-bit number.
    pub fn u32(&mut self) -> u32 {
        (self.u64() >> 32) as u32
    }

    /// Any 16-bit number.
    pub fn u16(&mut self) -> u16 {
        (self.u64() >> 48) as u16
    }

    /// Any byte.
    pub fn u8(&mut self) -> u8 {
        (self.u64() >> 56) as u8
    }

    /// A number below `limit`, which is not 0.
    pub fn below(&mut self, limit: usize) -> usize {
        (self.u64() % limit as u64) as usize
    }

    /// A number from `low` to `high`, both included.
    pub fn between(&mut self, low: usize, high: usize) -> usize {
        low + self.below(high - low + 1)
    }

    /// True once in `times` on average.
    pub fn one_in(&mut self, times: usize) -> bool {
        self.below(times) == 0
    }

    /// One of the choices, of which there is at least one.
    pub fn pick<T: Copy>(&mut self, choices: &[T]) -> T {
        choices[self.below(choices.len())]
    }

    /// One of the choices or, as often as each of them, what `other` gives.
    pub fn pick_or<T: Copy>(&mut self, choices: &[T], other: impl Fn(&mut Random) -> T) -> T {
        match choices.get(self.below(choices.len() + 1)) {
            Some(choice) => *choice,
            None => other(self),
        }
    }

    /// Puts all of them into another order.
    pub fn shuffle<T>(&mut self, all: &mut [T]) {
        for end in (1..all.len()).rev() {
            all.swap(end, self.below(end + 1));
        }
    }

    /// This many bytes.
    pub fn bytes(&mut self, count: usize) -> Vec<u8> {
        (0..count).map(|_| self.u8()).collect()
    }

    /// Bytes, up to this many.
    pub fn noise(&mut self, longest: usize) -> Vec<u8> {
        let count = self.between(0, longest);
        self.bytes(count)
    }

    /// This many 32-bit numbers.
    pub fn words(&mut self, count: usize) -> Vec<u32> {
        (0..count).map(|_| self.u32()).collect()
    }

    /// A word with about a quarter of the bits set.
    pub fn sparse(&mut self) -> u32 {
        self.u32() & self.u32()
    }

    /// A word with one bit set.
    pub fn bit(&mut self) -> u32 {
        1 << self.below(32)
    }
}

#[cfg(test)]
mod tests {
    use super::*;

    #[test]
    fn streams_repeat_and_differ() {
        let run = |stream| Random::new(5, stream).words(4);
        assert_eq!(run(1), run(1));
        assert_ne!(run(1), run(2));
    }

    #[test]
    fn numbers_stay_within_bounds() {
        let mut random = Random::new(1, 1);
        let numbers: Vec<_> = (0..1000).map(|_| random.between(3, 7)).collect();
        assert!((3..=7).all(|n| numbers.contains(&n)));
        assert!(numbers.iter().all(|n| (3..=7).contains(n)));
    }
}
