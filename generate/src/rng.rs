//! Numbers by chance, the same for the same seed.

#[derive(Clone, Debug)]
pub struct Rng(u64);

impl Rng {
    /// The `index`-th of the generators that a seed gives.
    pub fn new(seed: u64, index: u64) -> Rng {
        let mut rng = Rng(seed);
        rng.0 = rng.next() ^ index.wrapping_mul(0xD1B5_4A32_D192_ED03);
        rng.next();
        rng
    }

    /// The next 64 bits, by Steele, Lea and Flood's splitmix.
    #[expect(clippy::should_implement_trait, reason = "it has no end to wait for")]
    pub fn next(&mut self) -> u64 {
        self.0 = self.0.wrapping_add(0x9E37_79B9_7F4A_7C15);
        let mut z = self.0;
        z = (z ^ z >> 30).wrapping_mul(0xBF58_476D_1CE4_E5B9);
        z = (z ^ z >> 27).wrapping_mul(0x94D0_49BB_1331_11EB);
        z ^ z >> 31
    }

    pub fn bits(&mut self) -> u32 {
        (self.next() >> 32) as u32
    }

    /// Below `count`, which isn't zero.
    pub fn below(&mut self, count: usize) -> usize {
        (self.next() >> 11) as usize % count
    }

    pub fn between(&mut self, least: usize, most: usize) -> usize {
        least + self.below(most - least + 1)
    }

    /// Below `small` mostly, and any number else.
    pub fn number(&mut self, small: usize) -> u32 {
        match self.below(4) {
            0 => self.bits(),
            _ => self.below(small) as u32,
        }
    }

    /// True so many times in a thousand.
    pub fn chance(&mut self, in_thousand: usize) -> bool {
        self.below(1000) < in_thousand
    }

    pub fn one_in(&mut self, count: usize) -> bool {
        self.below(count) == 0
    }

    pub fn pick<T: Copy>(&mut self, choices: &[T]) -> T {
        choices[self.below(choices.len())]
    }

    /// A place in a list of weights.
    pub fn weighted(&mut self, weights: &[usize]) -> usize {
        let mut left = self.below(weights.iter().sum());
        weights
            .iter()
            .position(|&weight| {
                let found = left < weight;
                left = left.wrapping_sub(weight);
                found
            })
            .expect("below the sum")
    }

    /// Between minus one and one.
    pub fn signed(&mut self) -> f32 {
        self.bits() as i32 as f32 / -(i32::MIN as f32)
    }

    pub fn sign(&mut self) -> f32 {
        self.pick(&[1.0, -1.0])
    }
}
