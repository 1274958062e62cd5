//! The clauses of the circuits, written into buffers that suffice. A circuit
//! takes its part of both buffers at once, so that the room is tested once.

use crate::fast_circuits::{spaced, FALSE, ROW, SUM, TRUE};
use crate::fast_clauses::{and, majority, mux, xor};
use crate::fast_division::step_choices;
use crate::fast_sink::Sink;
use std::mem::take;

/// How the clauses of a gate lie, from its first word on.
const AND_STARTS: [u32; 3] = [0, 3, 6];
const EQUALITY_STARTS: [u32; 7] = [0, 4, 8, 12, 16, 19, 22];

/// What is left of the buffers, and how much was written.
pub struct Writer<'a> {
    words: &'a mut [u32],
    starts: &'a mut [u32],
    clauses: usize,
    at: usize,
}

impl<'a> Writer<'a> {
    pub fn new(words: &'a mut [u32], starts: &'a mut [u32]) -> Self {
        Writer {
            words,
            starts,
            clauses: 0,
            at: 0,
        }
    }

    /// The next words and starts, and where the words begin.
    #[inline(always)]
    fn next(&mut self, words: usize, clauses: usize) -> (&'a mut [u32], &'a mut [u32], u32) {
        let (next_words, rest) = take(&mut self.words).split_at_mut(words);
        self.words = rest;
        let (next_starts, rest) = take(&mut self.starts).split_at_mut(clauses);
        self.starts = rest;
        let at = self.at as u32;
        self.at = self.at.wrapping_add(words);
        self.clauses = self.clauses.wrapping_add(clauses);
        (next_words, next_starts, at)
    }

    /// AND(bit, b) for each of the bits.
    #[inline(always)]
    fn row(&mut self, mut g: u32, bits: &[u32], b: u32) {
        let (words, starts, at) = self.next(10 * bits.len(), 3 * bits.len());
        for (gate, &bit) in words.chunks_exact_mut(10).zip(bits) {
            gate.copy_from_slice(&and(g, bit, b));
            g = g.wrapping_add(2);
        }
        start_gates(starts, at, AND_STARTS, 10);
    }
}

/// Starts of clauses of three literals, one after another.
#[inline(always)]
fn start_threes(starts: &mut [u32], at: u32) {
    for (start, k) in starts.iter_mut().zip(0u32..) {
        *start = at.wrapping_add(4 * k);
    }
}

/// Starts of gates of a kind, one after another.
#[inline(always)]
fn start_gates<const CLAUSES: usize>(
    starts: &mut [u32],
    mut at: u32,
    offsets: [u32; CLAUSES],
    words: u32,
) {
    for gate in starts.chunks_exact_mut(CLAUSES) {
        for (start, offset) in gate.iter_mut().zip(offsets) {
            *start = at.wrapping_add(offset);
        }
        at = at.wrapping_add(words);
    }
}

/// Three gates for each place.
#[inline(always)]
fn write_adder(words: &mut [u32], mut g: u32, a: &[u32], b: &[u32], turned: u32, mut carry: u32) {
    for ((place, &a), &b) in words.chunks_exact_mut(56).zip(a).zip(b) {
        let (b, sum, next) = (b ^ turned, g.wrapping_add(2), g.wrapping_add(4));
        place[..16].copy_from_slice(&xor(g, a, b));
        place[16..32].copy_from_slice(&xor(sum, g, carry));
        place[32..].copy_from_slice(&majority(next, a, b, carry));
        carry = next;
        g = g.wrapping_add(6);
    }
}

/// The sum from this literal on, or the other bits: by the last carry, which is
/// the gate before the first choice.
#[inline(always)]
fn write_choices(words: &mut [u32], mut g: u32, mut sum: u32, other: &[u32]) {
    let carry = g.wrapping_sub(2);
    for (gate, &b) in words.chunks_exact_mut(16).zip(other) {
        gate.copy_from_slice(&mux(g, carry, sum, b));
        sum = sum.wrapping_add(SUM);
        g = g.wrapping_add(2);
    }
}

impl Sink for Writer<'_> {
    #[inline(always)]
    fn unit(&mut self, a: u32) {
        let (words, starts, at) = self.next(2, 1);
        words.copy_from_slice(&[1, a]);
        starts[0] = at;
    }

    #[inline(always)]
    fn and(&mut self, g: u32, a: u32, b: u32) {
        self.row(g, &[a], b);
    }

    #[inline(always)]
    fn join(&mut self, mut g: u32, c: u32, a: &[u32], b: &[u32], differing: usize) {
        let (words, starts, at) = self.next(16 * differing, 4 * differing);
        let places = a.iter().zip(b).filter(|(a, b)| a != b);
        for (gate, (&a, &b)) in words.chunks_exact_mut(16).zip(places) {
            gate.copy_from_slice(&mux(g, c, a, b));
            g = g.wrapping_add(2);
        }
        start_threes(starts, at);
    }

    #[inline(always)]
    fn adder(&mut self, g: u32, a: &[u32], b: &[u32], turned: u32, carry: u32) {
        let (words, starts, at) = self.next(56 * a.len(), 14 * a.len());
        write_adder(words, g, a, b, turned, carry);
        start_threes(starts, at);
    }

    fn product(&mut self, mut g: u32, s: &[u32], t: &[u32]) {
        let width = s.len();
        let (mut sum, mut row) = ([FALSE; 32], [FALSE; 32]);
        for (k, &bit) in t.iter().enumerate() {
            self.row(g, &s[..width - k], bit);
            spaced(&mut row[k..width], g, ROW);
            g = g.wrapping_add(ROW * (width - k) as u32);
            self.adder(g, &sum[..width], &row[..width], 0, FALSE);
            spaced(&mut sum, g.wrapping_add(2), SUM);
            g = g.wrapping_add(SUM * width as u32);
            row[k] = FALSE;
        }
    }

    /// A step takes its own part of the buffers: writing the starts of a whole
    /// division behind all of its words takes longer.
    fn division(&mut self, mut g: u32, s: &[u32], t: &[u32]) {
        let places = s.len() + 1;
        let mut divisor = [FALSE; 33];
        divisor[..s.len()].copy_from_slice(t);
        let mut shifted = [FALSE; 33];
        for &bit in s.iter().rev() {
            shifted[0] = bit;
            let (words, starts, at) = self.next(72 * places, 18 * places);
            let (adder, choices) = words.split_at_mut(56 * places);
            write_adder(adder, g, &shifted[..places], &divisor[..places], 1, TRUE);
            let chosen = step_choices(g, places);
            write_choices(choices, chosen, g.wrapping_add(2), &shifted[..places]);
            start_threes(starts, at);
            spaced(&mut shifted[1..], chosen, ROW);
            g = g.wrapping_add(8 * places as u32);
        }
    }

    #[inline(always)]
    fn equality(&mut self, mut g: u32, a: &[u32], b: &[u32]) {
        let (words, starts, at) = self.next(26 * a.len(), 7 * a.len());
        let mut equal = 2;
        for ((place, &a), &b) in words.chunks_exact_mut(26).zip(a).zip(b) {
            let next = g.wrapping_add(2);
            place[..16].copy_from_slice(&xor(g, a, b));
            place[16..].copy_from_slice(&and(next, equal, g ^ 1));
            equal = next;
            g = g.wrapping_add(4);
        }
        start_gates(starts, at, EQUALITY_STARTS, 26);
    }

    fn taken(&self) -> (usize, usize) {
        (self.clauses, self.at)
    }
}
