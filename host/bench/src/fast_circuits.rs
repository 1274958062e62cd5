//! The circuits. A number is a slice of its bits' literals, lowest first. Which
//! literals a circuit's results are is known before its gates are made.

use crate::fast_sink::Sink;

/// As many bits as the width says; those beyond are never looked at.
pub type Bits = [u32; 32];

pub const FALSE: u32 = 3;
pub const TRUE: u32 = 2;

/// How far apart the literals of neighbouring bits are: of inputs and of a row
/// of gates, and of a sum.
pub const ROW: u32 = 2;
pub const SUM: u32 = 6;

/// The bits of a constant.
#[inline]
pub fn constant(bits: &mut Bits, value: u32) {
    for (bit, j) in bits.iter_mut().zip(0..) {
        *bit = FALSE - u32::from(value & 1 << j != 0);
    }
}

/// Literals at the same distance from one another.
#[inline]
pub fn spaced(bits: &mut [u32], first: u32, distance: u32) {
    for (bit, j) in bits.iter_mut().zip(0u32..) {
        *bit = first.wrapping_add(distance * j);
    }
}

/// How many gates the rows of a product have together, each one less than the row
/// before it.
#[inline]
pub fn rows_gates(width: usize) -> usize {
    width * (width + 1) / 2
}

/// The literals that the gates make go up by two from `next` on.
pub struct Net<S> {
    pub sink: S,
    pub next: u32,
}

impl<S: Sink> Net<S> {
    /// The first literal of so many new variables.
    #[inline]
    pub fn take(&mut self, variables: usize) -> u32 {
        let first = self.next;
        self.next = first.wrapping_add(2 * variables as u32);
        first
    }

    #[inline]
    pub fn and(&mut self, a: u32, b: u32) -> u32 {
        let g = self.take(1);
        self.sink.and(g, a, b);
        g
    }

    /// The other bits become MUX(c, a, b) where they differ from the first.
    #[inline]
    pub fn join(&mut self, c: u32, first: &[u32], other: &mut [u32]) {
        let differing = first.iter().zip(&*other).filter(|(a, b)| a != b).count();
        let mut g = self.take(differing);
        self.sink.join(g, c, first, other, differing);
        for (&a, b) in first.iter().zip(other) {
            if a != *b {
                *b = g;
                g = g.wrapping_add(2);
            }
        }
    }

    /// The first of so many bits without gates.
    #[inline]
    pub fn inputs(&mut self, width: usize) -> u32 {
        self.take(width)
    }

    /// The first bit of the sum.
    pub fn add(&mut self, a: &[u32], b: &[u32]) -> u32 {
        self.sum(a, b, 0, FALSE)
    }

    pub fn subtract(&mut self, a: &[u32], b: &[u32]) -> u32 {
        self.sum(a, b, 1, TRUE)
    }

    /// A place has three gates, of which the second is the sum's.
    #[inline(always)]
    fn sum(&mut self, a: &[u32], b: &[u32], turned: u32, carry: u32) -> u32 {
        let g = self.take(3 * a.len());
        self.sink.adder(g, a, b, turned, carry);
        g.wrapping_add(2)
    }

    /// The first bit of the last sum. There is a row and a sum for each place, and
    /// a sum has three gates for each place.
    pub fn multiply(&mut self, s: &[u32], t: &[u32]) -> u32 {
        let width = s.len();
        let g = self.take(rows_gates(width) + 3 * width * width);
        self.sink.product(g, s, t);
        let last_sum = self.next.wrapping_sub(SUM * width as u32);
        last_sum.wrapping_add(2)
    }

    pub fn relation(&mut self, number: u8, a: &[u32], b: &[u32]) -> u32 {
        match number {
            0 => self.equal(a, b),
            1 => self.equal(a, b) ^ 1,
            2 => self.less(a, b, 0),
            3 => self.less(b, a, 0) ^ 1,
            4 => self.less(b, a, 0),
            5 => self.less(a, b, 0) ^ 1,
            6 => self.less(a, b, 1),
            7 => self.less(b, a, 1) ^ 1,
            8 => self.less(b, a, 1),
            _ => self.less(a, b, 1) ^ 1,
        }
    }

    /// The last of its gates.
    fn equal(&mut self, a: &[u32], b: &[u32]) -> u32 {
        let g = self.take(2 * a.len());
        self.sink.equality(g, a, b);
        self.next.wrapping_sub(2)
    }

    pub fn less_signed(&mut self, a: &[u32], b: &[u32]) -> u32 {
        self.less(a, b, 1)
    }

    /// The opposite of the last carry, which is the last of the gates. Where
    /// `signed` is 1, the opposites of the top bits are taken.
    fn less(&mut self, a: &[u32], b: &[u32], signed: u32) -> u32 {
        let last = a.len() - 1;
        let mut carry = TRUE;
        if last > 0 {
            self.sum(&a[..last], &b[..last], 1, carry);
            carry = self.next.wrapping_sub(2);
        }
        self.sum(&[a[last] ^ signed], &[b[last] ^ signed], 1, carry);
        self.next.wrapping_sub(2) ^ 1
    }
}
