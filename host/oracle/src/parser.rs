//! From the bytes of a routine to its tree, and the refusals 2 to 8.

use crate::arithmetic::{modulus, Operation, Resize, RELATIONS};
use crate::refusal::{Refusal, COMMAND, HEADER, NESTING, RANGE, TOO_MANY, TRAILING, WIDTHS};
use crate::routine::{Branch, Command, Header, Routine};
use std::ops::RangeInclusive;

const MAX_DEPTH: usize = 8;
const MAX_IFS: usize = 32;
const MAX_ACCESSES: usize = 64;

const END: u8 = 0x00;
const SET: u8 = 0x01;
const COPY: u8 = 0x02;
const ADD: u8 = 0x03;
const SUBTRACT: u8 = 0x04;
const MULTIPLY: u8 = 0x05;
const CUT: u8 = 0x06;
const ZERO_EXTEND: u8 = 0x07;
const SIGN_EXTEND: u8 = 0x08;
const READ: u8 = 0x09;
const WRITE: u8 = 0x0A;
const IF: u8 = 0x0B;
const ELSE: u8 = 0x0C;
const END_IF: u8 = 0x0D;
const QUOTIENT: u8 = 0x0E;
const REMAINDER: u8 = 0x0F;

/// Reads the header by rising offset, so that the first field that is wrong
/// or missing is the one refused.
pub(crate) fn parse_header(bytes: &[u8]) -> Result<Header, Refusal> {
    header_byte(bytes, 0, 1..=1)?;
    let variables = header_byte(bytes, 1, 1..=32)?;
    let widths = (0..variables)
        .map(|k| header_byte(bytes, 2 + k, 1..=32).map(|width| width as u32))
        .collect::<Result<Vec<_>, _>>()?;
    let parameters = header_byte(bytes, 2 + variables, 0..=variables)?;
    let arrays = header_byte(bytes, 3 + variables, 0..=16)?;
    let first_size = 4 + variables;
    let sizes = (0..arrays)
        .map(|k| header_size(bytes, first_size + 2 * k))
        .collect::<Result<Vec<_>, _>>()?;
    Ok(Header {
        widths,
        parameters,
        sizes,
        first_command: first_size + 2 * arrays,
    })
}

fn header_byte(
    bytes: &[u8],
    offset: usize,
    allowed: RangeInclusive<usize>,
) -> Result<usize, Refusal> {
    match bytes.get(offset) {
        Some(&byte) if allowed.contains(&usize::from(byte)) => Ok(usize::from(byte)),
        _ => Err(Refusal::new(HEADER, offset)),
    }
}

/// A two-byte size, refused as one field at the offset of its low byte.
fn header_size(bytes: &[u8], offset: usize) -> Result<u32, Refusal> {
    match bytes.get(offset..offset + 2) {
        Some(&[low, high]) => match u16::from_le_bytes([low, high]) {
            size @ 1..=4096 => Ok(u32::from(size)),
            _ => Err(Refusal::new(HEADER, offset)),
        },
        _ => Err(Refusal::new(HEADER, offset)),
    }
}

/// Parses the commands behind the header: 3 to 7 command by command, then 8.
pub(crate) fn parse_commands(bytes: &[u8], header: Header) -> Result<Routine, Refusal> {
    let mut parser = Parser::new(bytes, &header);
    let commands = parser.list(END)?;
    if parser.at < bytes.len() {
        return Err(Refusal::new(TRAILING, parser.at));
    }
    let Parser {
        ifs,
        accesses,
        reads,
        ..
    } = parser;
    Ok(Routine {
        header,
        commands,
        ifs,
        accesses,
        reads,
    })
}

/// How many operand bytes follow the command byte; none for an unknown one.
fn operand_count(code: u8) -> Option<usize> {
    match code {
        END | ELSE | END_IF => Some(0),
        SET => Some(5),
        COPY | CUT | ZERO_EXTEND | SIGN_EXTEND => Some(2),
        ADD | SUBTRACT | MULTIPLY | QUOTIENT | REMAINDER | READ | WRITE | IF => Some(3),
        _ => None,
    }
}

/// The state of parsing the commands. Within one command the rules are gone
/// through in the order 3, 4, 5, 6, 7.
struct Parser<'a> {
    bytes: &'a [u8],
    header: &'a Header,
    /// The offset of the next command.
    at: usize,
    /// How many ifs are open.
    depth: usize,
    ifs: usize,
    accesses: usize,
    reads: Vec<usize>,
}

impl<'a> Parser<'a> {
    fn new(bytes: &'a [u8], header: &'a Header) -> Self {
        Parser {
            bytes,
            header,
            at: header.first_command,
            depth: 0,
            ifs: 0,
            accesses: 0,
            reads: Vec::new(),
        }
    }

    /// Parses commands up to and with the terminator: the end for the whole
    /// routine, the else for a first arm, the end of if for an else arm. Any
    /// other of these three is out of place.
    fn list(&mut self, terminator: u8) -> Result<Vec<Command>, Refusal> {
        let mut commands = Vec::new();
        loop {
            let place = self.at;
            let (code, operands) = self.next_command()?;
            match code {
                END | ELSE | END_IF if code == terminator => return Ok(commands),
                END | ELSE | END_IF => return Err(Refusal::new(NESTING, place)),
                _ => commands.push(self.command(place, code, operands)?),
            }
        }
    }

    /// Takes the next command byte and its operand bytes. The bytes running
    /// out, an unknown command and a cut one are all refused before any
    /// operand is looked at.
    fn next_command(&mut self) -> Result<(u8, &'a [u8]), Refusal> {
        let refusal = Refusal::new(COMMAND, self.at);
        let code = *self.bytes.get(self.at).ok_or(refusal)?;
        let first = self.at + 1;
        let after = first + operand_count(code).ok_or(refusal)?;
        let operands = self.bytes.get(first..after).ok_or(refusal)?;
        self.at = after;
        Ok((code, operands))
    }

    fn command(&mut self, place: usize, code: u8, operands: &[u8]) -> Result<Command, Refusal> {
        match (code, operands) {
            (SET, &[d, c0, c1, c2, c3]) => self.set(place, d, u32::from_le_bytes([c0, c1, c2, c3])),
            (COPY, &[d, s]) => self.copy(place, d, s),
            (ADD, &[d, s, t]) => self.operate(place, Operation::Add, d, s, t),
            (SUBTRACT, &[d, s, t]) => self.operate(place, Operation::Subtract, d, s, t),
            (MULTIPLY, &[d, s, t]) => self.operate(place, Operation::Multiply, d, s, t),
            (QUOTIENT, &[d, s, t]) => self.operate(place, Operation::Quotient, d, s, t),
            (REMAINDER, &[d, s, t]) => self.operate(place, Operation::Remainder, d, s, t),
            (CUT, &[d, s]) => self.resize(place, Resize::Cut, d, s),
            (ZERO_EXTEND, &[d, s]) => self.resize(place, Resize::ZeroExtend, d, s),
            (SIGN_EXTEND, &[d, s]) => self.resize(place, Resize::SignExtend, d, s),
            (READ, &[d, array, i]) => self.read(place, d, array, i),
            (WRITE, &[array, i, s]) => self.write(place, array, i, s),
            (IF, &[relation, s, t]) => self.branch(place, relation, s, t),
            _ => unreachable!("the operands were counted by the command byte"),
        }
    }

    fn set(&self, place: usize, d: u8, c: u32) -> Result<Command, Refusal> {
        let d = self.variable(place, d)?;
        if u64::from(c) >= modulus(self.width(d)) {
            return Err(Refusal::new(RANGE, place));
        }
        Ok(Command::Set { d, c })
    }

    fn copy(&self, place: usize, d: u8, s: u8) -> Result<Command, Refusal> {
        let (d, s) = (self.variable(place, d)?, self.variable(place, s)?);
        self.require_widths(place, self.width(d) == self.width(s))?;
        Ok(Command::Copy { d, s })
    }

    fn operate(
        &self,
        place: usize,
        operation: Operation,
        d: u8,
        s: u8,
        t: u8,
    ) -> Result<Command, Refusal> {
        let d = self.variable(place, d)?;
        let (s, t) = (self.variable(place, s)?, self.variable(place, t)?);
        let equal = self.width(d) == self.width(s) && self.width(d) == self.width(t);
        self.require_widths(place, equal)?;
        Ok(Command::Operate { operation, d, s, t })
    }

    /// A cut goes to a narrower variable, an extension to a wider one.
    fn resize(&self, place: usize, kind: Resize, d: u8, s: u8) -> Result<Command, Refusal> {
        let (d, s) = (self.variable(place, d)?, self.variable(place, s)?);
        let fits = match kind {
            Resize::Cut => self.width(d) < self.width(s),
            Resize::ZeroExtend | Resize::SignExtend => self.width(d) > self.width(s),
        };
        self.require_widths(place, fits)?;
        Ok(Command::Resize { kind, d, s })
    }

    /// A read or write has no rule on widths.
    fn read(&mut self, place: usize, d: u8, array: u8, i: u8) -> Result<Command, Refusal> {
        let d = self.variable(place, d)?;
        let array = self.array(place, array)?;
        let i = self.variable(place, i)?;
        let access = self.number_access(place)?;
        let read = self.reads.len();
        self.reads.push(d);
        Ok(Command::Read {
            d,
            array,
            i,
            access,
            read,
        })
    }

    fn write(&mut self, place: usize, array: u8, i: u8, s: u8) -> Result<Command, Refusal> {
        let array = self.array(place, array)?;
        let (i, s) = (self.variable(place, i)?, self.variable(place, s)?);
        let access = self.number_access(place)?;
        Ok(Command::Write {
            array,
            i,
            s,
            access,
        })
    }

    fn branch(&mut self, place: usize, relation: u8, s: u8, t: u8) -> Result<Command, Refusal> {
        let relation = *RELATIONS
            .get(usize::from(relation))
            .ok_or(Refusal::new(RANGE, place))?;
        let (s, t) = (self.variable(place, s)?, self.variable(place, t)?);
        self.require_widths(place, self.width(s) == self.width(t))?;
        if self.depth == MAX_DEPTH {
            return Err(Refusal::new(NESTING, place));
        }
        if self.ifs == MAX_IFS {
            return Err(Refusal::new(TOO_MANY, place));
        }
        let number = self.ifs;
        self.ifs += 1;
        self.depth += 1;
        let first = self.list(ELSE)?;
        let other = self.list(END_IF)?;
        self.depth -= 1;
        Ok(Command::If(Branch {
            number,
            relation,
            s,
            t,
            first,
            other,
        }))
    }

    fn variable(&self, place: usize, operand: u8) -> Result<usize, Refusal> {
        below(place, operand, self.header.widths.len())
    }

    fn array(&self, place: usize, operand: u8) -> Result<usize, Refusal> {
        below(place, operand, self.header.sizes.len())
    }

    fn width(&self, variable: usize) -> u32 {
        self.header.widths[variable]
    }

    fn require_widths(&self, place: usize, fits: bool) -> Result<(), Refusal> {
        if fits {
            Ok(())
        } else {
            Err(Refusal::new(WIDTHS, place))
        }
    }

    /// Gives the next access its number.
    fn number_access(&mut self, place: usize) -> Result<usize, Refusal> {
        if self.accesses == MAX_ACCESSES {
            return Err(Refusal::new(TOO_MANY, place));
        }
        self.accesses += 1;
        Ok(self.accesses - 1)
    }
}

fn below(place: usize, operand: u8, count: usize) -> Result<usize, Refusal> {
    let operand = usize::from(operand);
    if operand < count {
        Ok(operand)
    } else {
        Err(Refusal::new(RANGE, place))
    }
}
