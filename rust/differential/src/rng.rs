//! Seeded random numbers: splitmix64 spreads the seed, xorshift64* draws.

/// Numbers at which a rule of document 01 turns, and the ends of 32 bits and of their signed half.
const BOUNDARIES: [u32; 22] = [
    0,
    1,
    2,
    3,
    4,
    8,
    9,
    19,
    20,
    28,
    31,
    32,
    63,
    64,
    65,
    79,
    80,
    65_535,
    65_536,
    0x7FFF_FFFF,
    0x8000_0000,
    0xFFFF_FFFF,
];

/// A stream of random numbers; the same seed gives the same stream.
pub struct Rng {
    seed: u64,
    state: u64,
}

/// The seed of a run's input with this number.
pub fn input_seed(run: u64, number: u64) -> u64 {
    spread(run ^ spread(number))
}

/// One step of splitmix64.
fn spread(seed: u64) -> u64 {
    let mut mixed = seed.wrapping_add(0x9E37_79B9_7F4A_7C15);
    mixed = (mixed ^ (mixed >> 30)).wrapping_mul(0xBF58_476D_1CE4_E5B9);
    mixed = (mixed ^ (mixed >> 27)).wrapping_mul(0x94D0_49BB_1331_11EB);
    mixed ^ (mixed >> 31)
}

impl Rng {
    /// The stream of this seed.
    pub fn new(seed: u64) -> Self {
        // The state of xorshift64* must not be 0.
        let state = spread(seed) | 1;
        Rng { seed, state }
    }

    /// The seed that the stream started from.
    pub fn seed(&self) -> u64 {
        self.seed
    }

    /// Any 64 bits.
    pub fn draw(&mut self) -> u64 {
        self.state ^= self.state >> 12;
        self.state ^= self.state << 25;
        self.state ^= self.state >> 27;
        self.state.wrapping_mul(0x2545_F491_4F6C_DD1D)
    }

    /// Any 32 bits.
    pub fn number(&mut self) -> u32 {
        (self.draw() >> 32) as u32
    }

    /// A number from 0 to just below `bound`, which isn't 0.
    pub fn below(&mut self, bound: usize) -> usize {
        assert!(bound > 0, "nothing is below 0");
        ((u128::from(self.draw()) * bound as u128) >> 64) as usize
    }

    /// A number from `least` to `most`, both included.
    pub fn within(&mut self, least: usize, most: usize) -> usize {
        least + self.below(most - least + 1)
    }

    /// True one time in `times`.
    pub fn chance(&mut self, times: usize) -> bool {
        self.below(times) == 0
    }

    /// One of these.
    pub fn pick<T: Copy>(&mut self, from: &[T]) -> T {
        from[self.below(from.len())]
    }

    /// Fills with random bytes.
    pub fn fill(&mut self, bytes: &mut [u8]) {
        for chunk in bytes.chunks_mut(8) {
            let drawn = self.draw().to_le_bytes();
            chunk.copy_from_slice(&drawn[..chunk.len()]);
        }
    }

    /// That many random bytes.
    pub fn bytes(&mut self, len: usize) -> Vec<u8> {
        let mut bytes = vec![0; len];
        self.fill(&mut bytes);
        bytes
    }

    /// A number moved to a boundary: one of the papers', or just beside itself, or where a sum with itself wraps.
    pub fn moved(&mut self, number: u32) -> u32 {
        match self.below(8) {
            0..=3 => self.pick(&BOUNDARIES),
            4 => number.wrapping_add(1),
            5 => number.wrapping_sub(1),
            6 => number.wrapping_neg(),
            _ => number ^ (1 << self.below(32)),
        }
    }
}

#[cfg(test)]
mod tests {
    use super::*;

    #[test]
    fn a_seed_gives_its_stream_again() {
        let mut first = Rng::new(7);
        let mut second = Rng::new(7);
        let mut other = Rng::new(8);
        let drawn: Vec<u64> = (0..10).map(|_| first.draw()).collect();
        assert!(drawn.iter().all(|&number| number == second.draw()));
        assert!(drawn.iter().any(|&number| number != other.draw()));
    }

    #[test]
    fn ranges_are_kept_and_filled() {
        let mut rng = Rng::new(1);
        let mut seen = [false; 4];
        for _ in 0..1_000 {
            seen[rng.within(3, 6) - 3] = true;
        }
        assert_eq!(seen, [true; 4]);
    }
}
