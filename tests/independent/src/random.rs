//! A small deterministic generator of numbers (splitmix64): the same seed
//! gives the same cases everywhere.

use crate::netlist::Level;

pub struct Random(u64);

impl Random {
    pub fn new(seed: u64) -> Self {
        Random(seed)
    }

    pub fn draw(&mut self) -> u64 {
        self.0 = self.0.wrapping_add(0x9E37_79B9_7F4A_7C15);
        let mut z = self.0;
        z = (z ^ (z >> 30)).wrapping_mul(0xBF58_476D_1CE4_E5B9);
        z = (z ^ (z >> 27)).wrapping_mul(0x94D0_49BB_1331_11EB);
        z ^ (z >> 31)
    }

    pub fn word(&mut self) -> u32 {
        (self.draw() >> 32) as u32
    }

    /// A number below `bound`, which is not 0. The bias is far too small to
    /// matter here.
    pub fn below(&mut self, bound: usize) -> usize {
        ((u128::from(self.draw()) * bound as u128) >> 64) as usize
    }

    /// A number from `low` up to `high`, both included.
    pub fn between(&mut self, low: usize, high: usize) -> usize {
        low + self.below(high - low + 1)
    }

    /// True in `percent` of a hundred cases.
    pub fn chance(&mut self, percent: usize) -> bool {
        self.below(100) < percent
    }

    pub fn pick<T: Copy>(&mut self, choices: &[T]) -> T {
        choices[self.below(choices.len())]
    }

    /// A length near the needed one: exact, one short, one long, or any.
    pub fn near(&mut self, needed: usize) -> usize {
        match self.below(20) {
            0..=8 => needed,
            9 | 10 => needed + 1,
            11 => needed + self.between(2, 40),
            12..=16 => needed.saturating_sub(1),
            17 => 0,
            _ => self.between(0, needed),
        }
    }

    /// A length below the needed one, which is not 0.
    pub fn fewer(&mut self, needed: usize) -> usize {
        match self.below(4) {
            0 => 0,
            1 => self.below(needed),
            _ => needed - 1,
        }
    }

    /// How many places more than it needs a list has.
    pub fn spare(&mut self) -> usize {
        self.pick(&[0, 0, 1, 7, 100])
    }

    /// A byte that is no bit.
    pub fn no_bit(&mut self) -> u8 {
        self.pick(&[2, 2, 3, 4, 128, 129, 254, 255])
    }

    /// A place in `weights`, as likely as its weight.
    pub fn weighted(&mut self, weights: &[u32]) -> usize {
        let total: u32 = weights.iter().sum();
        let mut left = self.below(total as usize) as u32;
        for (place, &weight) in weights.iter().enumerate() {
            if left < weight {
                return place;
            }
            left -= weight;
        }
        unreachable!("the weights are not all 0")
    }
}

/// Numbers for the test so numbered. Another `INDEPENDENT_SEED` gives other
/// cases.
pub fn seeded(test: u64) -> Random {
    let seed = match std::env::var("INDEPENDENT_SEED") {
        Ok(seed) => seed.parse().expect("INDEPENDENT_SEED is a number"),
        Err(_) => 1,
    };
    Random::new(test << 32 ^ seed)
}

/// What a list can be filled with: any content at all.
pub trait Arbitrary: Copy {
    fn arbitrary(random: &mut Random) -> Self;
}

impl Arbitrary for u8 {
    fn arbitrary(random: &mut Random) -> Self {
        (random.draw() >> 56) as u8
    }
}

impl Arbitrary for u32 {
    fn arbitrary(random: &mut Random) -> Self {
        random.word()
    }
}

impl Arbitrary for Level {
    fn arbitrary(random: &mut Random) -> Self {
        Level {
            ands: random.word(),
            muxes: random.word(),
        }
    }
}

pub fn fill<T: Arbitrary>(random: &mut Random, length: usize) -> Vec<T> {
    (0..length).map(|_| T::arbitrary(random)).collect()
}

pub fn bits(random: &mut Random, length: usize) -> Vec<u8> {
    (0..length).map(|_| (random.draw() >> 63) as u8).collect()
}

/// Bits of which that many in a hundred are 1.
pub fn biased(random: &mut Random, length: usize, percent: usize) -> Vec<u8> {
    (0..length)
        .map(|_| u8::from(random.chance(percent)))
        .collect()
}

/// Bits of which exactly that many are 1.
pub fn of_weight(random: &mut Random, length: usize, weight: usize) -> Vec<u8> {
    let mut bits = vec![0; length];
    bits[..weight].fill(1);
    for place in 0..length {
        bits.swap(place, random.between(place, length - 1));
    }
    bits
}

/// All lists of that many bits.
pub fn all_bits(length: usize) -> Vec<Vec<u8>> {
    (0..1_u32 << length)
        .map(|number| (0..length).map(|i| (number >> i & 1) as u8).collect())
        .collect()
}
