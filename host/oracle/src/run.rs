//! The run of a routine on a list of inputs, and the refusals 9, 10 and 16.

use crate::arithmetic::{holds, modulus, operate, resize, signed, Operation};
use crate::refusal::{Refusal, BUFFER, INPUT_COUNT, INPUT_RANGE, TRAIL_BUFFER, VALUES_BUFFER};
use crate::routine::{parse, Branch, Command, Routine};
use std::ops::ControlFlow;

/// The side on which an index lies outside its array.
#[derive(Clone, Copy, Debug, PartialEq, Eq)]
pub enum Side {
    Below,
    Above,
}

/// How a run came out.
#[derive(Clone, Copy, Debug, PartialEq, Eq)]
pub enum Outcome {
    Ended,
    Stopped {
        access: usize,
        side: Side,
        index: i64,
    },
}

/// What a run did at an if.
#[derive(Clone, Copy, Debug, PartialEq, Eq)]
pub enum Arm {
    First,
    Else,
    NotComeTo,
}

impl Arm {
    /// The byte that stands for this in the trail.
    pub fn byte(self) -> u8 {
        match self {
            Arm::First => 0,
            Arm::Else => 1,
            Arm::NotComeTo => 2,
        }
    }
}

/// Something a run comes to.
#[derive(Clone, Copy, Debug, PartialEq, Eq)]
pub enum Event {
    /// The if of this number, and the arm taken there.
    If { number: usize, arm: Arm },
    /// The access of this number, whether the run stops there or not.
    Access { number: usize },
    /// A quotient or remainder, and whether its divisor is zero.
    Division { operation: Operation, by_zero: bool },
}

/// A finished run: the values of all variables and the trail, both as they
/// were when the run ended or stopped, and the ifs, accesses and divisions that it
/// came to, in their order.
#[derive(Clone, Debug, PartialEq, Eq)]
pub struct Run {
    pub outcome: Outcome,
    pub values: Vec<u32>,
    pub trail: Vec<Arm>,
    pub events: Vec<Event>,
}

/// Runs a routine: 1 to 8, then 9, 10 and 16, then the commands. The lengths
/// are those of the values and trail buffers lent; they decide only whether
/// the run is refused.
pub fn run(
    bytes: &[u8],
    inputs: &[u32],
    values_len: usize,
    trail_len: usize,
) -> Result<Run, Refusal> {
    let routine = parse(bytes)?;
    check_inputs(&routine, inputs)?;
    check_buffers(&routine, values_len, trail_len)?;
    Ok(carry_out(&routine, inputs))
}

/// One word for each variable and each read, each below 2 to the width of
/// its variable, whether the run will come to the read or not.
pub(crate) fn check_inputs(routine: &Routine, inputs: &[u32]) -> Result<(), Refusal> {
    let widths = routine.input_widths();
    if inputs.len() != widths.len() {
        return Err(Refusal::new(INPUT_COUNT, inputs.len()));
    }
    let too_great = inputs
        .iter()
        .zip(&widths)
        .position(|(&word, &width)| u64::from(word) >= modulus(width));
    match too_great {
        Some(input) => Err(Refusal::new(INPUT_RANGE, input)),
        None => Ok(()),
    }
}

pub(crate) fn check_buffers(
    routine: &Routine,
    values_len: usize,
    trail_len: usize,
) -> Result<(), Refusal> {
    if values_len < routine.header.widths.len() {
        return Err(Refusal::new(BUFFER, VALUES_BUFFER));
    }
    if trail_len < routine.ifs {
        return Err(Refusal::new(BUFFER, TRAIL_BUFFER));
    }
    Ok(())
}

pub(crate) fn carry_out(routine: &Routine, inputs: &[u32]) -> Run {
    let (beginnings, words) = inputs.split_at(routine.header.widths.len());
    let mut machine = Machine {
        routine,
        words,
        values: beginnings.to_vec(),
        trail: vec![Arm::NotComeTo; routine.ifs],
        events: Vec::new(),
    };
    let outcome = match machine.walk(&routine.commands) {
        ControlFlow::Continue(()) => Outcome::Ended,
        ControlFlow::Break(stopped) => stopped,
    };
    Run {
        outcome,
        values: machine.values,
        trail: machine.trail,
        events: machine.events,
    }
}

struct Machine<'a> {
    routine: &'a Routine,
    /// One word for each read, by the read's number in the text.
    words: &'a [u32],
    values: Vec<u32>,
    trail: Vec<Arm>,
    events: Vec<Event>,
}

impl Machine<'_> {
    /// Carries out a list of commands; breaks off with the outcome when an
    /// access stops the run.
    fn walk(&mut self, commands: &[Command]) -> ControlFlow<Outcome> {
        commands
            .iter()
            .try_for_each(|command| self.command(command))
    }

    fn command(&mut self, command: &Command) -> ControlFlow<Outcome> {
        match *command {
            Command::Set { d, c } => self.values[d] = c,
            Command::Copy { d, s } => self.values[d] = self.values[s],
            Command::Operate { operation, d, s, t } => self.operate(operation, d, s, t),
            Command::Resize { kind, d, s } => {
                self.values[d] = resize(kind, self.values[s], self.width(s), self.width(d));
            }
            Command::Read {
                d,
                array,
                i,
                access,
                read,
            } => {
                self.access(access, array, i)?;
                self.values[d] = self.words[read];
            }
            // What is written is not kept: a read gives any value.
            Command::Write {
                array, i, access, ..
            } => self.access(access, array, i)?,
            Command::If(ref branch) => self.branch(branch)?,
        }
        ControlFlow::Continue(())
    }

    fn operate(&mut self, operation: Operation, d: usize, s: usize, t: usize) {
        let (a, b) = (self.values[s], self.values[t]);
        if let Operation::Quotient | Operation::Remainder = operation {
            let by_zero = b == 0;
            self.events.push(Event::Division { operation, by_zero });
        }
        self.values[d] = operate(operation, a, b, self.width(d));
    }

    /// The arm is chosen by the relation and noted before it is walked, so
    /// that a stop inside it leaves the trail right.
    fn branch(&mut self, branch: &Branch) -> ControlFlow<Outcome> {
        let (a, b) = (self.values[branch.s], self.values[branch.t]);
        let (arm, commands) = if holds(branch.relation, a, b, self.width(branch.s)) {
            (Arm::First, &branch.first)
        } else {
            (Arm::Else, &branch.other)
        };
        self.trail[branch.number] = arm;
        self.events.push(Event::If {
            number: branch.number,
            arm,
        });
        self.walk(commands)
    }

    /// The index is read as a two's complement number of its variable's width
    /// and compared with the size as a whole number; outside stops the run.
    fn access(&mut self, access: usize, array: usize, i: usize) -> ControlFlow<Outcome> {
        let index = signed(self.values[i], self.width(i));
        self.events.push(Event::Access { number: access });
        let side = if index < 0 {
            Side::Below
        } else if index >= i64::from(self.routine.header.sizes[array]) {
            Side::Above
        } else {
            return ControlFlow::Continue(());
        };
        ControlFlow::Break(Outcome::Stopped {
            access,
            side,
            index,
        })
    }

    fn width(&self, variable: usize) -> u32 {
        self.routine.header.widths[variable]
    }
}
