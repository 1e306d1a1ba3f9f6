//! A small deterministic source of random numbers (splitmix64), so that a seed
//! and a number name one case on every computer.

/// The source. Equal seeds give equal numbers.
#[derive(Clone, Debug)]
pub struct Random {
    state: u64,
}

/// Numbers that sit at some edge of the description.
const EDGES: [u32; 54] = [
    0,
    1,
    2,
    3,
    4,
    5,
    7,
    8,
    9,
    15,
    16,
    17,
    24,
    31,
    32,
    127,
    128,
    255,
    256,
    400,
    401,
    4_088,
    4_095,
    4_096,
    4_097,
    16_383,
    16_384,
    28_656,
    28_664,
    28_668,
    28_671,
    28_672,
    28_676,
    28_680,
    28_684,
    28_688,
    57_328,
    57_335,
    57_336,
    57_340,
    57_341,
    57_343,
    57_344,
    57_345,
    65_535,
    65_536,
    0x7FFF_FFFF,
    0x8000_0000,
    0xFFFF_FFF0,
    0xFFFF_FFF8,
    0xFFFF_FFFB,
    0xFFFF_FFFC,
    0xFFFF_FFFD,
    0xFFFF_FFFF,
];

const STEP: u64 = 0x9E37_79B9_7F4A_7C15;

impl Random {
    pub fn new(seed: u64) -> Random {
        Random { state: seed }
    }

    /// The source of one case: any case can be made again without the ones
    /// before it.
    pub fn for_case(seed: u64, case: u64) -> Random {
        let mut random = Random::new(seed);
        let first = random.draw();
        Random::new(first ^ case.wrapping_mul(STEP).rotate_left(17))
    }

    pub fn draw(&mut self) -> u64 {
        self.state = self.state.wrapping_add(STEP);
        let mut z = self.state;
        z = (z ^ (z >> 30)).wrapping_mul(0xBF58_476D_1CE4_E5B9);
        z = (z ^ (z >> 27)).wrapping_mul(0x94D0_49BB_1331_11EB);
        z ^ (z >> 31)
    }

    /// A number below a bound above 0. The bounds here are small, so that the
    /// remainder's slant is of no matter.
    pub fn below(&mut self, bound: u32) -> u32 {
        (self.draw() >> 16) as u32 % bound
    }

    pub fn index(&mut self, length: usize) -> usize {
        self.below(length as u32) as usize
    }

    /// A number from least to most, both among them.
    pub fn between(&mut self, least: u32, most: u32) -> u32 {
        least + self.below(most - least + 1)
    }

    /// True in so many of a hundred.
    pub fn chance(&mut self, percent: u32) -> bool {
        self.below(100) < percent
    }

    pub fn pick<T: Copy>(&mut self, from: &[T]) -> T {
        from[self.index(from.len())]
    }

    pub fn byte(&mut self) -> u8 {
        self.below(256) as u8
    }

    pub fn word(&mut self) -> u32 {
        (self.draw() >> 32) as u32
    }

    /// An index by weights.
    pub fn weighted(&mut self, weights: &[u32]) -> usize {
        let mut left = self.below(weights.iter().sum());
        for (index, &weight) in weights.iter().enumerate() {
            if left < weight {
                return index;
            }
            left -= weight;
        }
        weights.len() - 1
    }

    /// A number that sits at some edge of the description, or a small one, or
    /// any.
    pub fn edgy(&mut self) -> u32 {
        match self.below(8) {
            0..=3 => self.pick(&EDGES),
            4..=5 => self.below(64),
            6 => self.below(57_400),
            _ => self.word(),
        }
    }
}
