//! A small seeded generator of random numbers (splitmix64).

const STEP: u64 = 0x9E37_79B9_7F4A_7C15;

pub struct Rng(u64);

impl Rng {
    /// The generator of one case. Every case has its own, so that a case can
    /// be made again without the ones before it.
    pub fn for_case(seed: u64, case: u64) -> Self {
        // Mixed, because neighbouring states would give the same sequence
        // shifted by one.
        Rng(mix(seed ^ mix(case.wrapping_add(STEP))))
    }

    pub fn word(&mut self) -> u64 {
        self.0 = self.0.wrapping_add(STEP);
        mix(self.0)
    }

    pub fn byte(&mut self) -> u8 {
        self.word() as u8
    }

    /// A number below the bound, which is not 0.
    pub fn below(&mut self, bound: usize) -> usize {
        (self.word() % bound as u64) as usize
    }

    /// A number from the first to the last, both included.
    pub fn within(&mut self, first: usize, last: usize) -> usize {
        first + self.below(last - first + 1)
    }

    pub fn chance(&mut self, percent: usize) -> bool {
        self.below(100) < percent
    }

    /// Puts the entries into any order.
    pub fn shuffle<T>(&mut self, entries: &mut [T]) {
        for last in (1..entries.len()).rev() {
            entries.swap(last, self.below(last + 1));
        }
    }

    pub fn pick<T: Copy>(&mut self, from: &[T]) -> T {
        from[self.below(from.len())]
    }
}

fn mix(mut x: u64) -> u64 {
    x = (x ^ (x >> 30)).wrapping_mul(0xBF58_476D_1CE4_E5B9);
    x = (x ^ (x >> 27)).wrapping_mul(0x94D0_49BB_1331_11EB);
    x ^ (x >> 31)
}

/// Entries of buffers that can be filled with noise.
pub trait Noise: Copy + PartialEq + std::fmt::Debug {
    fn noise(rng: &mut Rng) -> Self;
}

impl Noise for u8 {
    fn noise(rng: &mut Rng) -> Self {
        rng.byte()
    }
}

impl Noise for u32 {
    fn noise(rng: &mut Rng) -> Self {
        rng.word() as u32
    }
}

impl Noise for u64 {
    fn noise(rng: &mut Rng) -> Self {
        rng.word()
    }
}
