//! The translation of a routine into clauses, and the refusals 11, 12 and 16.

use crate::arithmetic::Operation;
use crate::circuits::{constant, resize, top};
use crate::clauses::{Discard, Literal, Sink};
use crate::netlist::Netlist;
use crate::propagation::Assignment;
use crate::refusal::{Refusal, BUFFER, LEAD_LENGTH, LEAD_RANGE, STARTS_BUFFER, WORDS_BUFFER};
use crate::routine::{parse, Branch, Command, Header, Routine};
use crate::run::{Arm, Event, Side};
use std::mem::replace;
use std::ops::ControlFlow;

/// Only so many entries of a buffer are used.
pub const MAX_ENTRIES: usize = 16_777_216;

/// What is known of a translation beside its clauses.
#[derive(Clone, Debug, PartialEq, Eq)]
pub struct Translation {
    pub clauses: usize,
    pub words: usize,
    /// Variables are numbered from 1 to this.
    pub variables: usize,
    /// True where the run comes to the named access by the decisions.
    pub arrival: Literal,
    /// True where the index then lies on the named side.
    pub side: Literal,
    /// For each input word the variables of its bits, lowest first; none for
    /// a read that is not translated.
    pub inputs: Vec<Vec<u32>>,
}

impl Translation {
    /// The assignment that decides the bits of this input list, as far as they
    /// are translated, and nothing else.
    pub fn assignment(&self, inputs: &[u32]) -> Assignment {
        let mut assignment = Assignment::undecided(self.variables);
        for (variables, word) in self.inputs.iter().zip(inputs) {
            for (bit, &variable) in variables.iter().enumerate() {
                assignment.decide(variable, word >> bit & 1 == 1);
            }
        }
        assignment
    }

    /// Refuses the words, then the starts, where they are shorter than needed
    /// or more entries are needed than are ever used.
    pub fn fit(&self, words_len: usize, starts_len: usize) -> Result<(), Refusal> {
        if self.words > words_len.min(MAX_ENTRIES) {
            return Err(Refusal::new(BUFFER, WORDS_BUFFER));
        }
        if self.clauses > starts_len.min(MAX_ENTRIES) {
            return Err(Refusal::new(BUFFER, STARTS_BUFFER));
        }
        Ok(())
    }
}

/// Counts a translation without storing it: 1 to 8, then 11 and 12.
pub fn measure(
    bytes: &[u8],
    access: u8,
    side: u8,
    decisions: &[u8],
) -> Result<Translation, Refusal> {
    translate(bytes, access, side, decisions, &mut Discard)
}

/// Translates a routine: 1 to 8, then 11 and 12, then the clauses one by one.
pub fn translate<S: Sink>(
    bytes: &[u8],
    access: u8,
    side: u8,
    decisions: &[u8],
    sink: &mut S,
) -> Result<Translation, Refusal> {
    let routine = parse(bytes)?;
    let named = Named::new(&routine, access, side, decisions)?;
    Ok(Translator::new(&routine, named, sink).translate())
}

/// What to do at an if.
#[derive(Clone, Copy, Debug, PartialEq, Eq)]
pub(crate) enum Decision {
    First,
    Else,
    Free,
}

impl Decision {
    /// Whether a run that takes this arm keeps to the decision.
    pub fn allows(self, arm: Arm) -> bool {
        match self {
            Decision::First => arm == Arm::First,
            Decision::Else => arm == Arm::Else,
            Decision::Free => true,
        }
    }
}

/// The access and side that a translation is about, and the decisions.
pub(crate) struct Named {
    pub access: usize,
    pub side: Side,
    pub decisions: Vec<Decision>,
}

impl Named {
    /// What a run comes to where it comes to the named access.
    pub fn come_to(&self) -> Event {
        let number = self.access;
        Event::Access { number }
    }

    pub fn new(routine: &Routine, access: u8, side: u8, decisions: &[u8]) -> Result<Self, Refusal> {
        if decisions.len() != routine.ifs {
            return Err(Refusal::new(LEAD_LENGTH, decisions.len()));
        }
        let access = usize::from(access);
        if access >= routine.accesses {
            return Err(Refusal::new(LEAD_RANGE, 0));
        }
        let side = match side {
            0 => Side::Below,
            1 => Side::Above,
            _ => return Err(Refusal::new(LEAD_RANGE, 1)),
        };
        let decisions = decisions
            .iter()
            .enumerate()
            .map(|(number, &byte)| match byte {
                0 => Ok(Decision::First),
                1 => Ok(Decision::Else),
                2 => Ok(Decision::Free),
                _ => Err(Refusal::new(LEAD_RANGE, 2 + number)),
            })
            .collect::<Result<_, _>>()?;
        Ok(Named {
            access,
            side,
            decisions,
        })
    }
}

/// The two literals that the last two clauses are about.
struct Found {
    arrival: Literal,
    side: Literal,
}

struct Translator<'a, S> {
    routine: &'a Routine,
    header: &'a Header,
    named: Named,
    netlist: Netlist<'a, S>,
    /// The literals of each variable's bits.
    bits: Vec<Vec<Literal>>,
    arrival: Literal,
    inputs: Vec<Vec<u32>>,
}

impl<'a, S: Sink> Translator<'a, S> {
    fn new(routine: &'a Routine, named: Named, sink: &'a mut S) -> Self {
        let variables = routine.header.widths.len();
        let mut translator = Translator {
            routine,
            header: &routine.header,
            named,
            netlist: Netlist::new(sink),
            bits: vec![Vec::new(); variables],
            arrival: Literal::TRUE,
            inputs: vec![Vec::new(); variables + routine.reads.len()],
        };
        for variable in 0..variables {
            translator.input(variable, variable);
        }
        translator
    }

    fn translate(mut self) -> Translation {
        let found = match self.list(&self.routine.commands) {
            ControlFlow::Break(found) => found,
            ControlFlow::Continue(()) => unreachable!("the named access is in the routine"),
        };
        self.netlist.clause(&[found.arrival]);
        self.netlist.clause(&[-found.side]);
        Translation {
            clauses: self.netlist.clauses(),
            words: self.netlist.words(),
            variables: self.netlist.variables(),
            arrival: found.arrival,
            side: found.side,
            inputs: self.inputs,
        }
    }

    /// Gives a variable new bits, which are those of this input word.
    fn input(&mut self, word: usize, variable: usize) {
        let width = self.header.widths[variable];
        let bits: Vec<_> = (0..width).map(|_| self.netlist.variable()).collect();
        self.inputs[word] = bits.iter().map(|bit| bit.variable()).collect();
        self.bits[variable] = bits;
    }

    /// Translates a list of commands; breaks off at the named access.
    fn list(&mut self, commands: &[Command]) -> ControlFlow<Found> {
        commands
            .iter()
            .try_for_each(|command| self.command(command))
    }

    fn command(&mut self, command: &Command) -> ControlFlow<Found> {
        match *command {
            Command::Set { d, c } => self.bits[d] = constant(c, self.header.widths[d]),
            Command::Copy { d, s } => self.bits[d] = self.bits[s].clone(),
            Command::Operate { operation, d, s, t } => self.operate(operation, d, s, t),
            Command::Resize { kind, d, s } => {
                self.bits[d] = resize(kind, &self.bits[s], self.bits[d].len());
            }
            Command::Read {
                d,
                array,
                i,
                access,
                read,
            } => {
                self.access(access, array, i)?;
                self.input(self.header.widths.len() + read, d);
            }
            Command::Write {
                array, i, access, ..
            } => self.access(access, array, i)?,
            Command::If(ref branch) => self.branch(branch)?,
        }
        ControlFlow::Continue(())
    }

    fn operate(&mut self, operation: Operation, d: usize, s: usize, t: usize) {
        let (a, b) = (&self.bits[s], &self.bits[t]);
        self.bits[d] = self.netlist.operate(operation, a, b);
    }

    /// Both arms' arrivals are made before either arm's commands, and the
    /// else starts from the bits at the if.
    fn branch(&mut self, branch: &Branch) -> ControlFlow<Found> {
        let (a, b) = (&self.bits[branch.s], &self.bits[branch.t]);
        let condition = self.netlist.relation(branch.relation, a, b);
        let (first, other) = self.arrivals(branch.number, condition);
        let at_the_if = self.bits.clone();
        self.arrival = first;
        self.list(&branch.first)?;
        let first_bits = replace(&mut self.bits, at_the_if);
        let first_arrival = replace(&mut self.arrival, other);
        self.list(&branch.other)?;
        self.join(condition, &first_bits);
        self.arrival = -self.netlist.and(-first_arrival, -self.arrival);
        ControlFlow::Continue(())
    }

    /// The arrivals that the two arms begin with. A decision makes the other
    /// arm's false without a gate.
    fn arrivals(&mut self, number: usize, condition: Literal) -> (Literal, Literal) {
        let decision = self.named.decisions[number];
        let first = match decision {
            Decision::First | Decision::Free => self.netlist.and(self.arrival, condition),
            Decision::Else => Literal::FALSE,
        };
        let other = match decision {
            Decision::Else | Decision::Free => self.netlist.and(self.arrival, -condition),
            Decision::First => Literal::FALSE,
        };
        (first, other)
    }

    /// Joins the bits that the first arm ends with and those of the else,
    /// which are the present ones, by the condition.
    fn join(&mut self, condition: Literal, first: &[Vec<Literal>]) {
        for (first, other) in first.iter().zip(&mut self.bits) {
            for (&first, other) in first.iter().zip(other) {
                if first != *other {
                    *other = self.netlist.mux(condition, first, *other);
                }
            }
        }
    }

    fn access(&mut self, access: usize, array: usize, i: usize) -> ControlFlow<Found> {
        let size = self.header.sizes[array];
        let is_negative = top(&self.bits[i]);
        if access == self.named.access {
            let side = match self.named.side {
                Side::Below => is_negative,
                Side::Above => self.above(i, size),
            };
            let arrival = self.arrival;
            return ControlFlow::Break(Found { arrival, side });
        }
        let above = self.above(i, size);
        let inside = self.netlist.and(-is_negative, -above);
        self.arrival = self.netlist.and(self.arrival, inside);
        ControlFlow::Continue(())
    }

    /// Whether the index lies at or above the size. A size that the index
    /// variable cannot hold as a positive number is never reached.
    fn above(&mut self, i: usize, size: u32) -> Literal {
        let width = self.header.widths[i];
        let greatest = (1_u64 << (width - 1)) - 1;
        if u64::from(size) > greatest {
            return Literal::FALSE;
        }
        let size = constant(size, width);
        -self.netlist.less_signed(&self.bits[i], &size)
    }
}
