//! Where the clauses of the circuits go. Sums are taken as wrapping here and in
//! the circuits: none ever wraps.

use crate::fast_circuits::rows_gates;

/// Takes circuits, each by the first of the literals that it makes, which go up
/// by two, and by what it is made of.
pub trait Sink {
    fn unit(&mut self, a: u32);
    fn and(&mut self, g: u32, a: u32, b: u32);
    /// MUX(c, a, b) for the places where the two differ, which are so many.
    fn join(&mut self, g: u32, c: u32, a: &[u32], b: &[u32], differing: usize);
    /// Three gates for each place; where `turned` is 1, it takes the opposites
    /// of b.
    fn adder(&mut self, g: u32, a: &[u32], b: &[u32], turned: u32, carry: u32);
    /// For each bit of t a row of ANDs with the bits of s, and a sum.
    fn product(&mut self, g: u32, s: &[u32], t: &[u32]);
    /// A step for each bit of s from the top: an adder over one place more, and a
    /// choice for each of these.
    fn division(&mut self, g: u32, s: &[u32], t: &[u32]);
    /// Two gates for each place.
    fn equality(&mut self, g: u32, a: &[u32], b: &[u32]);
    /// How many clauses and words it took.
    fn taken(&self) -> (usize, usize);
}

/// Counts what would be written.
#[derive(Default)]
pub struct Counter {
    clauses: usize,
    words: usize,
}

impl Counter {
    #[inline]
    fn add(&mut self, times: usize, clauses: usize, words: usize) {
        self.clauses = self.clauses.wrapping_add(times.wrapping_mul(clauses));
        self.words = self.words.wrapping_add(times.wrapping_mul(words));
    }
}

impl Sink for Counter {
    #[inline]
    fn unit(&mut self, _: u32) {
        self.add(1, 1, 2);
    }

    #[inline]
    fn and(&mut self, _: u32, _: u32, _: u32) {
        self.add(1, 3, 10);
    }

    #[inline]
    fn join(&mut self, _: u32, _: u32, _: &[u32], _: &[u32], differing: usize) {
        self.add(differing, 4, 16);
    }

    #[inline]
    fn adder(&mut self, _: u32, a: &[u32], _: &[u32], _: u32, _: u32) {
        self.add(a.len(), 4 + 4 + 6, 16 + 16 + 24);
    }

    #[inline]
    fn product(&mut self, _: u32, s: &[u32], _: &[u32]) {
        self.add(rows_gates(s.len()), 3, 10);
        self.add(s.len() * s.len(), 4 + 4 + 6, 16 + 16 + 24);
    }

    #[inline]
    fn division(&mut self, _: u32, s: &[u32], _: &[u32]) {
        self.add(s.len() * (s.len() + 1), 4 + 4 + 6 + 4, 16 + 16 + 24 + 16);
    }

    #[inline]
    fn equality(&mut self, _: u32, a: &[u32], _: &[u32]) {
        self.add(a.len(), 4 + 3, 16 + 10);
    }

    fn taken(&self) -> (usize, usize) {
        (self.clauses, self.words)
    }
}
