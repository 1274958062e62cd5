//! The run of a checked routine: nothing that the check told is tested again.

use crate::fast_check::{Arms, Place, Routine};
use crate::fast_word::{divided, holds, reduce, sign_extended, signed};

/// How a run came out.
#[derive(Clone, Copy)]
pub enum End {
    Ended,
    Stopped {
        access: u8,
        index: i32,
    },
    /// It took another arm than the decided one, at the if of this number.
    Astray(u8),
    /// It came to the named access.
    Arrived {
        array: u8,
        index: i32,
    },
}

/// Who looks on.
pub trait Watch {
    /// Whether the arm taken at the if of this number, with so many accesses
    /// before it, is as decided.
    fn allows(&self, number: u8, accesses: u8, arm: u8) -> bool;
    fn names(&self, access: u8) -> bool;
}

/// A run that nobody looks at.
pub struct Unwatched;

impl Watch for Unwatched {
    fn allows(&self, _: u8, _: u8, _: u8) -> bool {
        true
    }

    fn names(&self, _: u8) -> bool {
        false
    }
}

/// One state, changed in place.
pub struct Machine<'a, W> {
    routine: &'a Routine,
    inputs: &'a [u32],
    watch: W,
    /// One for every byte, so that a variable is looked up without a test.
    pub values: [u32; 256],
    pub trail: [u8; 32],
    /// How many ifs and accesses stand before the run's place, and the number of
    /// the next input.
    ifs: u8,
    accesses: u8,
    reads: usize,
    depth: usize,
    /// For each depth the number of the if that the run is in.
    open: [u8; 8],
}

impl<'a, W: Watch> Machine<'a, W> {
    pub fn new(routine: &'a Routine, inputs: &'a [u32], watch: W) -> Self {
        let variables = routine.header.variables;
        let mut values = [0; 256];
        values[..variables].copy_from_slice(&inputs[..variables]);
        Machine {
            routine,
            inputs,
            watch,
            values,
            trail: [2; 32],
            ifs: 0,
            accesses: 0,
            reads: variables,
            depth: 0,
            open: [0; 8],
        }
    }

    /// Runs as far as the end, or as far as somebody watches.
    #[inline]
    pub fn run(&mut self, bytes: &[u8]) -> End {
        let mut rest = &bytes[self.routine.header.first_command..];
        loop {
            rest = match rest[0] {
                0x00 => return End::Ended,
                0x01 => self.set(rest),
                0x02 | 0x07 => self.convert(rest, |x, _, _| x),
                0x03 => self.compute(rest, u32::wrapping_add),
                0x04 => self.compute(rest, u32::wrapping_sub),
                0x05 => self.compute(rest, u32::wrapping_mul),
                op @ (0x0E | 0x0F) => self.divide(op, rest),
                0x06 => self.convert(rest, |x, to, _| reduce(x, to)),
                0x08 => self.convert(rest, sign_extended),
                0x0B => match self.branch(rest) {
                    Ok(0) => &rest[4..],
                    Ok(_) => self.enter(bytes, |arms| arms.second),
                    Err(end) => return end,
                },
                0x0C => {
                    let rest = self.enter(bytes, |arms| arms.end);
                    self.depth -= 1;
                    rest
                }
                0x0D => {
                    self.depth -= 1;
                    &rest[1..]
                }
                op => match self.access(op, rest) {
                    Ok(()) => &rest[4..],
                    Err(end) => return end,
                },
            };
        }
    }

    #[inline(always)]
    fn value(&self, variable: u8) -> u32 {
        self.values[variable as usize]
    }

    #[inline(always)]
    fn set<'b>(&mut self, rest: &'b [u8]) -> &'b [u8] {
        let ([_, d, constant @ ..], rest) = split::<6>(rest);
        self.values[d as usize] = u32::from_le_bytes(constant);
        rest
    }

    #[inline(always)]
    fn compute<'b>(&mut self, rest: &'b [u8], op: impl Fn(u32, u32) -> u32) -> &'b [u8] {
        let ([_, d, s, t], rest) = split(rest);
        let width = self.routine.header.width(d);
        self.values[d as usize] = reduce(op(self.value(s), self.value(t)), width);
        rest
    }

    /// A processor's division gives both, and one of them is chosen without a
    /// jump.
    #[inline(always)]
    fn divide<'b>(&mut self, op: u8, rest: &'b [u8]) -> &'b [u8] {
        self.compute(rest, |a, b| {
            let (quotient, remainder) = divided(a, b);
            if op == 0x0E {
                quotient
            } else {
                remainder
            }
        })
    }

    #[inline(always)]
    fn convert<'b>(&mut self, rest: &'b [u8], op: impl Fn(u32, u8, u8) -> u32) -> &'b [u8] {
        let ([_, d, s], rest) = split(rest);
        let header = &self.routine.header;
        self.values[d as usize] = op(self.value(s), header.width(d), header.width(s));
        rest
    }

    /// A read or a write.
    #[inline(always)]
    fn access(&mut self, op: u8, rest: &[u8]) -> Result<(), End> {
        let ([_, a, b, c], _) = split(rest);
        let (array, index) = if op == 0x09 { (b, c) } else { (a, b) };
        let header = &self.routine.header;
        let index = signed(self.value(index), header.width(index));
        let access = self.accesses;
        if self.watch.names(access) {
            return Err(End::Arrived { array, index });
        }
        if index < 0 || index >= i32::from(header.size(array)) {
            return Err(End::Stopped { access, index });
        }
        self.accesses += 1;
        if op == 0x09 {
            self.values[a as usize] = self.inputs[self.reads];
            self.reads += 1;
        }
        Ok(())
    }

    /// The arm that the if takes.
    #[inline(always)]
    fn branch(&mut self, rest: &[u8]) -> Result<u8, End> {
        let ([_, relation, s, t], _) = split(rest);
        let width = self.routine.header.width(s);
        let arm = u8::from(!holds(relation, self.value(s), self.value(t), width));
        let number = self.ifs;
        if !self.watch.allows(number, self.accesses, arm) {
            return Err(End::Astray(number));
        }
        self.trail[(number & 31) as usize] = arm;
        self.open[self.depth & 7] = number;
        self.depth += 1;
        self.ifs += 1;
        Ok(arm)
    }

    /// Goes to a place of the innermost if.
    #[inline(always)]
    fn enter<'b>(&mut self, bytes: &'b [u8], which: impl Fn(&Arms) -> Place) -> &'b [u8] {
        let number = self.open[(self.depth - 1) & 7];
        let place = which(&self.routine.counts.arms[(number & 31) as usize]);
        self.ifs = place.ifs;
        self.accesses = place.accesses;
        self.reads = place.reads as usize + self.routine.header.variables;
        &bytes[place.at as usize..]
    }
}

/// The bytes of a command, and what follows.
#[inline(always)]
fn split<const SIZE: usize>(rest: &[u8]) -> ([u8; SIZE], &[u8]) {
    let (command, rest) = rest.split_at(SIZE);
    let command = command.try_into().expect("a slice of just that length");
    (command, rest)
}
