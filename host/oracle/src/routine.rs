//! The routine: its header, and its commands as a tree.

use crate::arithmetic::{Operation, Relation, Resize};
use crate::parser::{parse_commands, parse_header};
use crate::refusal::{Refusal, LENGTH};

const MAX_BYTES: usize = 4096;

/// What the header says.
#[derive(Clone, Debug, PartialEq, Eq)]
pub struct Header {
    /// The width of each variable, in bits.
    pub widths: Vec<u32>,
    /// The first so many variables are parameters; the others begin with what
    /// the last pick left in them.
    pub parameters: usize,
    /// The size of each array.
    pub sizes: Vec<u32>,
    /// The offset of the first command.
    pub first_command: usize,
}

/// A command; `d` is the variable it sets, `s` and `t` are those it takes,
/// `i` is an index variable.
#[derive(Clone, Debug, PartialEq, Eq)]
pub enum Command {
    Set {
        d: usize,
        c: u32,
    },
    Copy {
        d: usize,
        s: usize,
    },
    Operate {
        operation: Operation,
        d: usize,
        s: usize,
        t: usize,
    },
    Resize {
        kind: Resize,
        d: usize,
        s: usize,
    },
    /// `access` and `read` are the command's numbers in text order.
    Read {
        d: usize,
        array: usize,
        i: usize,
        access: usize,
        read: usize,
    },
    Write {
        array: usize,
        i: usize,
        s: usize,
        access: usize,
    },
    If(Branch),
}

/// An if with its two arms.
#[derive(Clone, Debug, PartialEq, Eq)]
pub struct Branch {
    /// The if's number in text order.
    pub number: usize,
    pub relation: Relation,
    pub s: usize,
    pub t: usize,
    pub first: Vec<Command>,
    pub other: Vec<Command>,
}

/// A routine that passed 1 to 8.
#[derive(Clone, Debug, PartialEq, Eq)]
pub struct Routine {
    pub header: Header,
    pub commands: Vec<Command>,
    pub ifs: usize,
    pub accesses: usize,
    /// For each read, in text order, the variable that it sets.
    pub reads: Vec<usize>,
}

/// What checking a routine answers.
#[derive(Clone, Copy, Debug, PartialEq, Eq)]
pub struct Counts {
    pub variables: usize,
    pub parameters: usize,
    pub arrays: usize,
    pub ifs: usize,
    pub accesses: usize,
    pub reads: usize,
    /// The offset of the first command.
    pub first_command: usize,
}

/// Checks a routine and counts its parts.
pub fn check(bytes: &[u8]) -> Result<Counts, Refusal> {
    parse(bytes).map(|routine| routine.counts())
}

/// Parses a routine: 1, then 2, then 3 to 7 command by command, then 8.
pub fn parse(bytes: &[u8]) -> Result<Routine, Refusal> {
    if bytes.is_empty() || bytes.len() > MAX_BYTES {
        return Err(Refusal::new(LENGTH, 0));
    }
    parse_commands(bytes, parse_header(bytes)?)
}

impl Routine {
    pub fn counts(&self) -> Counts {
        Counts {
            variables: self.header.widths.len(),
            parameters: self.header.parameters,
            arrays: self.header.sizes.len(),
            ifs: self.ifs,
            accesses: self.accesses,
            reads: self.reads.len(),
            first_command: self.header.first_command,
        }
    }

    /// The width of each input word: one for each variable, parameter or not,
    /// then one for each read, which is that of the variable that the read sets.
    pub fn input_widths(&self) -> Vec<u32> {
        let widths = &self.header.widths;
        (0..widths.len())
            .chain(self.reads.iter().copied())
            .map(|variable| widths[variable])
            .collect()
    }
}
