//! A lent buffer: a part of a larger one, with guard entries on both sides.

use crate::rng::{Noise, Rng};
use oracle::MAX_ENTRIES;

const MAX_GUARD: usize = 8;
/// The most differences that are named; a buffer can have millions.
const MAX_NAMED: usize = 20;

#[derive(Clone)]
pub struct Lent<T> {
    whole: Vec<T>,
    from: usize,
    len: usize,
}

impl<T: Noise> Lent<T> {
    /// A buffer of noise, of which `len` entries are lent.
    pub fn noise(rng: &mut Rng, len: usize) -> Self {
        let from = rng.within(1, MAX_GUARD);
        let total = from + len + rng.within(1, MAX_GUARD);
        let whole = (0..total).map(|_| T::noise(rng)).collect();
        Lent { whole, from, len }
    }

    /// A buffer that lends `content`. Right behind it lies `beyond`: a reader
    /// that goes past the length finds there what it was hoping for.
    pub fn holding(rng: &mut Rng, content: &[T], beyond: &[T]) -> Self {
        let mut lent = Lent::noise(rng, content.len());
        let behind = lent.from + lent.len;
        lent.whole[lent.from..behind].copy_from_slice(content);
        lent.whole.splice(behind..behind, beyond.iter().copied());
        lent
    }

    pub fn len(&self) -> usize {
        self.len
    }

    pub fn is_empty(&self) -> bool {
        self.len == 0
    }

    /// The part that is lent.
    pub fn slice(&self) -> &[T] {
        &self.whole[self.from..self.from + self.len]
    }

    /// The part that is lent, for writing.
    pub fn slice_mut(&mut self) -> &mut [T] {
        &mut self.whole[self.from..self.from + self.len]
    }

    /// Writes to the first entries of the lent part.
    pub fn fill(&mut self, first: &[T]) {
        self.slice_mut()[..first.len()].copy_from_slice(first);
    }

    /// The buffer after a call that zeroes it: zeros as far as buffers are used,
    /// and the rest as it was.
    pub fn zeroed(&self) -> Self
    where
        T: Default,
    {
        let mut zeroed = self.clone();
        let used = self.len.min(MAX_ENTRIES);
        zeroed.slice_mut()[..used].fill(T::default());
        zeroed
    }

    /// Names the first entries, guards included, in which `got` differs. Entry 0
    /// is the first one lent.
    pub fn differences(&self, got: &Lent<T>) -> Vec<String> {
        assert_eq!(
            self.whole.len(),
            got.whole.len(),
            "one buffer before and after"
        );
        let pairs = self.whole.iter().zip(&got.whole).enumerate();
        pairs
            .filter(|(_, (expected, got))| expected != got)
            .take(MAX_NAMED)
            .map(|(k, (expected, got))| {
                let entry = k as i64 - self.from as i64;
                format!("entry {entry}: expected {expected:?}, got {got:?}")
            })
            .collect()
    }
}
