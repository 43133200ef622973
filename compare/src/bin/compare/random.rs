//! Random numbers from a seed, so that every case can be made again.

/// A splitmix64 generator: a counter that moves by a fixed odd step, and a mixing of its bits.
pub struct Random {
    counter: u64,
}

impl Random {
    pub fn new(seed: u64) -> Random {
        Random { counter: seed }
    }

    /// The generator of one case of a comparison: the same numbers whichever cases came before.
    pub fn for_case(seed: u64, case: u64) -> Random {
        let mut of_seed = Random::new(seed);
        let mut random = Random::new(of_seed.next() ^ case);
        random.counter = random.next();
        random
    }

    fn next(&mut self) -> u64 {
        self.counter = self.counter.wrapping_add(0x9E37_79B9_7F4A_7C15);
        let mut bits = self.counter;
        bits = (bits ^ bits >> 30).wrapping_mul(0xBF58_476D_1CE4_E5B9);
        bits = (bits ^ bits >> 27).wrapping_mul(0x94D0_49BB_1331_11EB);
        bits ^ bits >> 31
    }

    /// A number from 0 to less than the bound, which is not 0.
    pub fn below(&mut self, bound: u64) -> u64 {
        self.next() % bound
    }

    /// A number from the least to the greatest, both counted.
    pub fn between(&mut self, least: u32, greatest: u32) -> u32 {
        least + self.below(u64::from(greatest - least) + 1) as u32
    }

    /// An index into something of the given length, which is not 0.
    pub fn index(&mut self, length: usize) -> usize {
        self.below(length as u64) as usize
    }

    /// Any 32-bit number.
    pub fn number(&mut self) -> u32 {
        (self.next() >> 32) as u32
    }

    /// Any byte.
    pub fn byte(&mut self) -> u8 {
        (self.next() >> 56) as u8
    }

    /// True once in so many times.
    pub fn one_in(&mut self, times: u64) -> bool {
        self.below(times) == 0
    }

    /// One of the choices.
    pub fn pick<T: Copy>(&mut self, choices: &[T]) -> T {
        choices[self.index(choices.len())]
    }

    /// Puts the things in a random order.
    pub fn shuffle<T>(&mut self, things: &mut [T]) {
        for place in (1..things.len()).rev() {
            things.swap(place, self.index(place + 1));
        }
    }
}

#[cfg(test)]
mod tests {
    use super::*;

    #[test]
    fn a_case_can_be_made_again() {
        let numbers = |seed, case| {
            let mut random = Random::for_case(seed, case);
            [random.next(), random.next(), random.next()]
        };
        assert_eq!(numbers(1, 7), numbers(1, 7));
        assert_ne!(numbers(1, 7), numbers(1, 8));
        assert_ne!(numbers(1, 7), numbers(2, 7));
    }

    #[test]
    fn numbers_stay_between_their_bounds_and_reach_them() {
        let mut random = Random::new(3);
        let drawn: Vec<u32> = (0..1_000).map(|_| random.between(5, 9)).collect();
        assert_eq!(drawn.iter().min(), Some(&5));
        assert_eq!(drawn.iter().max(), Some(&9));
        assert_eq!(Random::new(0).between(7, 7), 7);
    }
}
