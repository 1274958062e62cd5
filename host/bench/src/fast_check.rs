//! The check of a routine's commands, in one pass over the bytes.

use crate::fast_header::{read, Header};
use crate::fast_refusal::Refusal;

const COMMAND: u8 = 3;
const RANGE: u8 = 4;
const WIDTHS: u8 = 5;
const NESTING: u8 = 6;
const TOO_MANY: u8 = 7;
const TRAILING: u8 = 8;

/// A routine that passed 1 to 8.
pub struct Routine {
    pub header: Header,
    pub counts: Counts,
}

/// How many ifs, accesses and reads there are, the variable of each read, and
/// where the arms of each if lie, so that a run can go past them.
pub struct Counts {
    pub ifs: u8,
    pub accesses: u8,
    pub reads: u8,
    pub read_by: [u8; 64],
    pub arms: [Arms; 32],
}

/// Where the else of an if begins, and where the if ends.
#[derive(Clone, Copy, Default)]
pub struct Arms {
    pub second: Place,
    pub end: Place,
}

/// An offset, and how many ifs, accesses and reads stand before it.
#[derive(Clone, Copy, Default)]
pub struct Place {
    pub at: u16,
    pub ifs: u8,
    pub accesses: u8,
    pub reads: u8,
}

/// 1 to 8.
pub fn check(bytes: &[u8]) -> Result<Routine, Refusal> {
    let header = read(bytes)?;
    let counts = walk(bytes, &header)?;
    Ok(Routine { header, counts })
}

/// 3 to 8.
fn walk(bytes: &[u8], header: &Header) -> Result<Counts, Refusal> {
    let mut walk = Walk {
        header,
        counts: Counts {
            ifs: 0,
            accesses: 0,
            reads: 0,
            read_by: [0; 64],
            arms: [Arms::default(); 32],
        },
        depth: 0,
        closes: [0; 9],
        open: [0; 9],
    };
    let mut rest = &bytes[header.first_command..];
    loop {
        let place = bytes.len() - rest.len();
        match walk.command(rest, place) {
            Ok(Some(next)) => rest = next,
            Ok(None) if rest.len() > 1 => return Err(Refusal(TRAILING, place + 1)),
            Ok(None) => return Ok(walk.counts),
            Err(number) => return Err(Refusal(number, place)),
        }
    }
}

struct Walk<'a> {
    header: &'a Header,
    counts: Counts,
    depth: usize,
    /// For each depth the byte that closes the arm there.
    closes: [u8; 9],
    /// For each depth the number of the if that is open there.
    open: [u8; 9],
}

/// What follows a command, or the number of its refusal.
type Next<'b> = Result<&'b [u8], u8>;

impl Walk<'_> {
    /// What follows the command, if it is not the end.
    #[inline(always)]
    fn command<'b>(&mut self, rest: &'b [u8], place: usize) -> Result<Option<&'b [u8]>, u8> {
        let next = match *rest.first().ok_or(COMMAND)? {
            0x00 if self.depth > 0 => return Err(NESTING),
            0x00 => return Ok(None),
            0x01 => self.set(rest),
            0x02 => self.convert(rest, |to, from| to == from),
            0x03..=0x05 => self.compute(rest),
            0x06 => self.convert(rest, |to, from| to < from),
            0x07 | 0x08 => self.convert(rest, |to, from| to > from),
            0x09 => self.read(rest),
            0x0A => self.write(rest),
            0x0B => self.branch(rest),
            0x0C => self.enter_else(rest, place),
            0x0D => self.leave(rest, place),
            0x0E | 0x0F => self.compute(rest),
            _ => Err(COMMAND),
        };
        next.map(Some)
    }

    #[inline(always)]
    fn set<'b>(&mut self, rest: &'b [u8]) -> Next<'b> {
        let ([_, d, c0, c1, c2, c3], rest) = split(rest)?;
        let value = u32::from_le_bytes([c0, c1, c2, c3]);
        let width = self.header.width(d);
        if width == 0 || u64::from(value) >> width != 0 {
            return Err(RANGE);
        }
        Ok(rest)
    }

    #[inline(always)]
    fn compute<'b>(&mut self, rest: &'b [u8]) -> Next<'b> {
        let ([_, d, s, t], rest) = split(rest)?;
        let [u, v, w] = [d, s, t].map(|variable| self.header.width(variable));
        if u != v || u != w || u == 0 {
            return Err(range_or_widths(u.min(v).min(w)));
        }
        Ok(rest)
    }

    #[inline(always)]
    fn convert<'b>(&mut self, rest: &'b [u8], fits: impl Fn(u8, u8) -> bool) -> Next<'b> {
        let ([_, d, s], rest) = split(rest)?;
        let (to, from) = (self.header.width(d), self.header.width(s));
        if to == 0 || from == 0 || !fits(to, from) {
            return Err(range_or_widths(to.min(from)));
        }
        Ok(rest)
    }

    #[inline(always)]
    fn read<'b>(&mut self, rest: &'b [u8]) -> Next<'b> {
        let ([_, d, array, index], rest) = split(rest)?;
        self.access(array, index, d)?;
        let number = self.counts.reads;
        self.counts.reads += 1;
        self.counts.read_by[(number & 63) as usize] = d;
        Ok(rest)
    }

    #[inline(always)]
    fn write<'b>(&mut self, rest: &'b [u8]) -> Next<'b> {
        let ([_, array, index, s], rest) = split(rest)?;
        self.access(array, index, s)?;
        Ok(rest)
    }

    #[inline(always)]
    fn access(&mut self, array: u8, index: u8, other: u8) -> Result<(), u8> {
        let is_variable = |operand: u8| self.header.width(operand) != 0;
        if self.header.size(array) == 0 || !is_variable(index) || !is_variable(other) {
            return Err(RANGE);
        }
        if self.counts.accesses == 64 {
            return Err(TOO_MANY);
        }
        self.counts.accesses += 1;
        Ok(())
    }

    #[inline(always)]
    fn branch<'b>(&mut self, rest: &'b [u8]) -> Next<'b> {
        let ([_, relation, s, t], rest) = split(rest)?;
        let (v, w) = (self.header.width(s), self.header.width(t));
        if relation > 9 || v == 0 || w == 0 {
            return Err(RANGE);
        }
        if v != w {
            return Err(WIDTHS);
        }
        if self.depth == 8 {
            return Err(NESTING);
        }
        if self.counts.ifs == 32 {
            return Err(TOO_MANY);
        }
        self.depth += 1;
        self.open[self.depth] = self.counts.ifs;
        self.counts.ifs += 1;
        self.closes[self.depth] = 0x0C;
        Ok(rest)
    }

    #[inline(always)]
    fn enter_else<'b>(&mut self, rest: &'b [u8], place: usize) -> Next<'b> {
        if self.closes[self.depth] != 0x0C {
            return Err(NESTING);
        }
        self.closes[self.depth] = 0x0D;
        let after = self.after(place);
        self.arms().second = after;
        Ok(&rest[1..])
    }

    #[inline(always)]
    fn leave<'b>(&mut self, rest: &'b [u8], place: usize) -> Next<'b> {
        if self.closes[self.depth] != 0x0D {
            return Err(NESTING);
        }
        let after = self.after(place);
        self.arms().end = after;
        self.depth -= 1;
        Ok(&rest[1..])
    }

    /// The arms of the innermost if that is open.
    #[inline(always)]
    fn arms(&mut self) -> &mut Arms {
        &mut self.counts.arms[(self.open[self.depth] & 31) as usize]
    }

    /// The place behind the one byte here.
    #[inline(always)]
    fn after(&self, place: usize) -> Place {
        Place {
            at: place as u16 + 1,
            ifs: self.counts.ifs,
            accesses: self.counts.accesses,
            reads: self.counts.reads,
        }
    }
}

/// The bytes of a command, and what follows.
#[inline(always)]
fn split<const SIZE: usize>(rest: &[u8]) -> Result<([u8; SIZE], &[u8]), u8> {
    if rest.len() < SIZE {
        return Err(COMMAND);
    }
    let (command, rest) = rest.split_at(SIZE);
    let command = command.try_into().expect("a slice of just that length");
    Ok((command, rest))
}

/// An operand that is no variable has the width 0, and goes before the widths.
#[cold]
fn range_or_widths(least: u8) -> u8 {
    if least == 0 {
        RANGE
    } else {
        WIDTHS
    }
}
