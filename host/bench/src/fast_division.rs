//! Which literals a division makes. A step for each bit of the dividend, from
//! the top, subtracts the divisor from the shifted remainder and then chooses
//! between the two, over one place more than the operands have.

use crate::fast_circuits::{spaced, Net, ROW};
use crate::fast_sink::Sink;

impl<S: Sink> Net<S> {
    /// The first literal of a division: quotient and remainder have the same
    /// gates.
    pub fn divide(&mut self, s: &[u32], t: &[u32]) -> u32 {
        let g = self.take(4 * s.len() * (s.len() + 1));
        self.sink.division(g, s, t);
        g
    }
}

/// The first choice of a step that begins with this literal.
#[inline]
pub fn step_choices(g: u32, places: usize) -> u32 {
    g.wrapping_add(6 * places as u32)
}

/// Each step's last carry, that of the first step on top.
pub fn quotient_bits(bits: &mut [u32], g: u32) {
    let places = bits.len() + 1;
    let top = step_choices(g, places).wrapping_sub(2);
    for (bit, step) in bits.iter_mut().rev().zip(0u32..) {
        *bit = top.wrapping_add(8 * places as u32 * step);
    }
}

/// What the last step chose.
pub fn remainder_bits(bits: &mut [u32], g: u32) {
    let places = bits.len() + 1;
    let last = g.wrapping_add((8 * places * (bits.len() - 1)) as u32);
    spaced(bits, step_choices(last, places), ROW);
}
