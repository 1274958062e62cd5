//! The circuits of the arithmetic and of the relations. A value is the list of
//! its bits' literals, lowest first.

use crate::arithmetic::{Operation, Relation, Resize};
use crate::clauses::{Literal, Sink};
use crate::netlist::Netlist;

/// The bits of a constant.
pub fn constant(value: u32, width: u32) -> Vec<Literal> {
    (0..width)
        .map(|bit| Literal::constant(value >> bit & 1 == 1))
        .collect()
}

/// The bits in another width; no gates are needed.
pub fn resize(kind: Resize, bits: &[Literal], to: usize) -> Vec<Literal> {
    let fill = match kind {
        Resize::Cut | Resize::ZeroExtend => Literal::FALSE,
        Resize::SignExtend => top(bits),
    };
    let mut resized = bits.to_vec();
    resized.resize(to, fill);
    resized
}

/// The highest bit, which is the sign of an index.
pub fn top(bits: &[Literal]) -> Literal {
    bits[bits.len() - 1]
}

impl<S: Sink> Netlist<'_, S> {
    pub fn operate(&mut self, operation: Operation, a: &[Literal], b: &[Literal]) -> Vec<Literal> {
        match operation {
            Operation::Add => self.sum(a, b, Literal::FALSE).0,
            Operation::Subtract => self.difference(a, b).0,
            Operation::Multiply => self.product(a, b),
            Operation::Quotient => self.divide(a, b).0,
            Operation::Remainder => self.divide(a, b).1,
        }
    }

    /// The sum and the last carry.
    fn sum(&mut self, a: &[Literal], b: &[Literal], mut carry: Literal) -> (Vec<Literal>, Literal) {
        let mut sum = Vec::with_capacity(a.len());
        for (&a, &b) in a.iter().zip(b) {
            let half = self.xor(a, b);
            sum.push(self.xor(half, carry));
            carry = self.majority(a, b, carry);
        }
        (sum, carry)
    }

    /// The difference and the last carry, which is false where it borrows.
    fn difference(&mut self, a: &[Literal], b: &[Literal]) -> (Vec<Literal>, Literal) {
        let opposite: Vec<_> = b.iter().map(|&bit| -bit).collect();
        self.sum(a, &opposite, Literal::TRUE)
    }

    /// Row after row, each added over the whole width, the first too.
    fn product(&mut self, s: &[Literal], t: &[Literal]) -> Vec<Literal> {
        let mut sum = vec![Literal::FALSE; s.len()];
        for (k, &bit) in t.iter().enumerate() {
            let mut row = vec![Literal::FALSE; k];
            for j in k..s.len() {
                row.push(self.and(s[j - k], bit));
            }
            sum = self.sum(&sum, &row, Literal::FALSE).0;
        }
        sum
    }

    /// The quotient and the remainder, by the same gates whichever of them is
    /// wanted. Long division from the top bit of `s`: the remainder has one bit
    /// more than the operands, because it is shifted up before the divisor is
    /// taken from it.
    fn divide(&mut self, s: &[Literal], t: &[Literal]) -> (Vec<Literal>, Vec<Literal>) {
        let width = s.len();
        let divisor = resize(Resize::ZeroExtend, t, width + 1);
        let mut quotient = vec![Literal::FALSE; width];
        let mut remainder = vec![Literal::FALSE; width + 1];
        for k in (0..width).rev() {
            let mut shifted = vec![s[k]];
            shifted.extend(&remainder[..width]);
            let (difference, fits) = self.difference(&shifted, &divisor);
            quotient[k] = fits;
            remainder = self.choose(fits, &difference, &shifted);
        }
        remainder.truncate(width);
        (quotient, remainder)
    }

    /// Bit by bit `a` where `c` is true, `b` where it is false.
    fn choose(&mut self, c: Literal, a: &[Literal], b: &[Literal]) -> Vec<Literal> {
        let pairs = a.iter().zip(b);
        pairs.map(|(&a, &b)| self.mux(c, a, b)).collect()
    }

    pub fn relation(&mut self, relation: Relation, a: &[Literal], b: &[Literal]) -> Literal {
        match relation {
            Relation::Equal => self.equal(a, b),
            Relation::NotEqual => -self.equal(a, b),
            Relation::LessUnsigned => self.less_unsigned(a, b),
            Relation::LessEqualUnsigned => -self.less_unsigned(b, a),
            Relation::GreaterUnsigned => self.less_unsigned(b, a),
            Relation::GreaterEqualUnsigned => -self.less_unsigned(a, b),
            Relation::LessSigned => self.less_signed(a, b),
            Relation::LessEqualSigned => -self.less_signed(b, a),
            Relation::GreaterSigned => self.less_signed(b, a),
            Relation::GreaterEqualSigned => -self.less_signed(a, b),
        }
    }

    fn equal(&mut self, a: &[Literal], b: &[Literal]) -> Literal {
        let mut equal = Literal::TRUE;
        for (&a, &b) in a.iter().zip(b) {
            let differ = self.xor(a, b);
            equal = self.and(equal, -differ);
        }
        equal
    }

    fn less_unsigned(&mut self, a: &[Literal], b: &[Literal]) -> Literal {
        -self.difference(a, b).1
    }

    pub fn less_signed(&mut self, a: &[Literal], b: &[Literal]) -> Literal {
        self.less_unsigned(&opposite_top(a), &opposite_top(b))
    }
}

/// With the top bit turned, the signed order becomes the unsigned one.
fn opposite_top(bits: &[Literal]) -> Vec<Literal> {
    let mut turned = bits.to_vec();
    turned[bits.len() - 1] = -top(bits);
    turned
}
