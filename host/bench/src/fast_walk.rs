//! The walk of a translation over the bytes of a checked routine.

use crate::fast_circuits::{constant, spaced, Bits, Net, FALSE, ROW, SUM, TRUE};
use crate::fast_division::{quotient_bits, remainder_bits};
use crate::fast_header::Header;
use crate::fast_sink::Sink;
use crate::fast_translate::{Claim, Size};
use std::mem::{replace, swap};

/// The side's literal: the walk came to the named access.
struct Arrived(u32);

/// What follows, unless the walk came to the named access.
type Next<'b> = Result<&'b [u8], Arrived>;

/// At most `V` variables, a power of two.
pub fn walk<S: Sink, const V: usize>(bytes: &[u8], header: &Header, claim: Claim, sink: S) -> Size {
    let mut walk = Walk::<S, V> {
        header,
        claim,
        net: Net { sink, next: 4 },
        bits: [[FALSE; 32]; V],
        arrival: TRUE,
        ifs: 0,
        accesses: 0,
    };
    walk.net.sink.unit(TRUE);
    for variable in 0..header.variables as u8 {
        walk.input(variable);
    }
    if let Err(Arrived(side)) = walk.arm(&bytes[header.first_command..]) {
        walk.net.sink.unit(walk.arrival);
        walk.net.sink.unit(side ^ 1);
    }
    let (clauses, words) = walk.net.sink.taken();
    Size {
        clauses,
        words,
        variables: walk.net.next as usize / 2 - 1,
    }
}

struct Walk<'a, S, const V: usize> {
    header: &'a Header,
    claim: Claim<'a>,
    net: Net<S>,
    bits: [Bits; V],
    arrival: u32,
    ifs: usize,
    accesses: u8,
}

/// Where a variable's bits are.
#[inline(always)]
fn place<const V: usize>(variable: u8) -> usize {
    variable as usize & (V - 1)
}

impl<S: Sink, const V: usize> Walk<'_, S, V> {
    #[inline(always)]
    fn width(&self, variable: u8) -> usize {
        self.header.width(variable) as usize
    }

    /// Goes through an arm, and over what closes it.
    fn arm<'b>(&mut self, mut rest: &'b [u8]) -> Next<'b> {
        loop {
            rest = match *rest {
                [0x01, d, c0, c1, c2, c3, ref rest @ ..] => {
                    let value = u32::from_le_bytes([c0, c1, c2, c3]);
                    constant(&mut self.bits[place::<V>(d)], value);
                    rest
                }
                [op @ (0x03..=0x05 | 0x0E | 0x0F), d, s, t, ref rest @ ..] => {
                    self.compute(op, d, s, t);
                    rest
                }
                [0x09, d, array, i, ref rest @ ..] => {
                    self.access(array, i)?;
                    self.input(d);
                    rest
                }
                [0x0A, array, i, _, ref rest @ ..] => {
                    self.access(array, i)?;
                    rest
                }
                [0x0B, relation, s, t, ref rest @ ..] => self.branch(relation, s, t, rest)?,
                [op @ (0x02 | 0x06..=0x08), d, s, ref rest @ ..] => {
                    self.convert(op, d, s);
                    rest
                }
                _ => return Ok(&rest[1..]),
            }
        }
    }

    #[inline(always)]
    fn input(&mut self, d: u8) {
        let first = self.net.inputs(self.width(d));
        spaced(&mut self.bits[place::<V>(d)], first, ROW);
    }

    #[inline(always)]
    fn compute(&mut self, op: u8, d: u8, s: u8, t: u8) {
        let width = self.width(s);
        let a = &self.bits[place::<V>(s)][..width];
        let b = &self.bits[place::<V>(t)][..width];
        let first = match op {
            0x03 => self.net.add(a, b),
            0x04 => self.net.subtract(a, b),
            0x05 => self.net.multiply(a, b),
            _ => self.net.divide(a, b),
        };
        let bits = &mut self.bits[place::<V>(d)];
        match op {
            0x0E => quotient_bits(&mut bits[..width], first),
            0x0F => remainder_bits(&mut bits[..width], first),
            _ => spaced(bits, first, SUM),
        }
    }

    #[inline(always)]
    fn convert(&mut self, op: u8, d: u8, s: u8) {
        let mut bits = self.bits[place::<V>(s)];
        let width = self.width(s);
        let past = if op == 0x08 { bits[width - 1] } else { FALSE };
        bits[width..].fill(past);
        self.bits[place::<V>(d)] = bits;
    }

    fn branch<'b>(&mut self, relation: u8, s: u8, t: u8, rest: &'b [u8]) -> Next<'b> {
        let width = self.width(s);
        let a = &self.bits[place::<V>(s)][..width];
        let b = &self.bits[place::<V>(t)][..width];
        let c = self.net.relation(relation, a, b);
        let decision = self.claim.decisions[self.ifs];
        self.ifs += 1;
        let arrival = self.arrival;
        self.arrival = self.arm_arrival(decision == 1, arrival, c);
        let other = self.arm_arrival(decision == 0, arrival, c ^ 1);
        let mut kept = self.bits;
        let rest = self.arm(rest)?;
        swap(&mut self.bits, &mut kept);
        let first = replace(&mut self.arrival, other);
        let rest = self.arm(rest)?;
        self.join(c, &kept);
        self.arrival = self.net.and(first ^ 1, self.arrival ^ 1) ^ 1;
        Ok(rest)
    }

    /// 3, without a gate, where the other arm is decided.
    #[inline(always)]
    fn arm_arrival(&mut self, is_other_decided: bool, arrival: u32, c: u32) -> u32 {
        if is_other_decided {
            return FALSE;
        }
        self.net.and(arrival, c)
    }

    #[inline(always)]
    fn join(&mut self, c: u32, first: &[Bits; V]) {
        let variables = self.header.variables;
        let pairs = first.iter().zip(&mut self.bits).take(variables);
        for ((first, other), &width) in pairs.zip(&self.header.widths) {
            let width = width as usize;
            self.net.join(c, &first[..width], &mut other[..width]);
        }
    }

    /// Stops at the named access; another one leaves arrival.
    #[inline(always)]
    fn access(&mut self, array: u8, i: u8) -> Result<(), Arrived> {
        let top = self.bits[place::<V>(i)][self.width(i) - 1];
        let is_named = self.accesses == self.claim.access;
        self.accesses += 1;
        if is_named && self.claim.side == 0 {
            return Err(Arrived(top));
        }
        let above = self.above(i, u32::from(self.header.size(array)));
        if is_named {
            return Err(Arrived(above));
        }
        let inside = self.net.and(top ^ 1, above ^ 1);
        self.arrival = self.net.and(self.arrival, inside);
        Ok(())
    }

    #[inline(always)]
    fn above(&mut self, i: u8, size: u32) -> u32 {
        let width = self.width(i);
        if u64::from(size) >= 1 << (width - 1) {
            return FALSE;
        }
        let index = &self.bits[place::<V>(i)][..width];
        let mut bound = [FALSE; 32];
        constant(&mut bound, size);
        self.net.less_signed(index, &bound[..width]) ^ 1
    }
}
