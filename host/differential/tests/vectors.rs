//! The bit-vector results that z3 gave, kept in `host/vectors`, held against
//! the oracle's arithmetic, against runs by the library, and against the
//! circuits that the library translates into. No z3 is needed here.

use differential::translation_compare::read_clauses;
use oracle::arithmetic::{holds, operate, resize, Operation, Resize, RELATIONS};
use oracle::propagation::propagate;
use oracle::Outcome;
use pellet::ANSWER_LEN;

const VECTORS: &str = include_str!("../../vectors/bitvectors.txt");

const RELATION_NAMES: [&str; 10] = [
    "=", "!=", "<u", "<=u", ">u", ">=u", "<s", "<=s", ">s", ">=s",
];

const OPERATIONS: [(&str, u8, Operation); 5] = [
    ("add", 0x03, Operation::Add),
    ("subtract", 0x04, Operation::Subtract),
    ("multiply", 0x05, Operation::Multiply),
    ("quotient", 0x0E, Operation::Quotient),
    ("remainder", 0x0F, Operation::Remainder),
];

enum Term {
    Operate {
        code: u8,
        operation: Operation,
        a: u32,
        b: u32,
    },
    Relate {
        number: u8,
        a: u32,
        b: u32,
    },
    Resize {
        code: u8,
        to: u8,
        a: u32,
    },
}

struct Vector {
    line: &'static str,
    width: u8,
    term: Term,
    /// For a relation 1 where it holds, else 0.
    result: u32,
}

fn vectors() -> Vec<Vector> {
    let lines = VECTORS.lines().filter(|line| !line.starts_with('#'));
    lines
        .map(|line| parse(line).unwrap_or_else(|| panic!("not a vector: {line}")))
        .collect()
}

fn parse(line: &'static str) -> Option<Vector> {
    let mut words = line.split(' ');
    let name = words.next()?;
    let numbers: Vec<u32> = words.map(|word| word.parse().ok()).collect::<Option<_>>()?;
    let (width, second, third, result) = match *numbers.as_slice() {
        [width, second, third, result] => (width as u8, second, third, result),
        _ => return None,
    };
    let (a, b) = (second, third);
    let resize = |code| Term::Resize {
        code,
        to: second as u8,
        a: third,
    };
    let operation = OPERATIONS.iter().find(|known| known.0 == name);
    let term = match (name, operation) {
        (_, Some(&(_, code, operation))) => Term::Operate {
            code,
            operation,
            a,
            b,
        },
        ("cut", _) => resize(0x06),
        ("zero-extend", _) => resize(0x07),
        ("sign-extend", _) => resize(0x08),
        _ => {
            let number = RELATION_NAMES.iter().position(|&known| known == name)? as u8;
            Term::Relate { number, a, b }
        }
    };
    Some(Vector {
        line,
        width,
        term,
        result,
    })
}

impl Vector {
    fn by_arithmetic(&self) -> u32 {
        let width = u32::from(self.width);
        match self.term {
            Term::Operate {
                operation, a, b, ..
            } => operate(operation, a, b, width),
            Term::Relate { number, a, b } => {
                u32::from(holds(RELATIONS[usize::from(number)], a, b, width))
            }
            Term::Resize { code, to, a } => {
                let kinds = [Resize::Cut, Resize::ZeroExtend, Resize::SignExtend];
                resize(kinds[usize::from(code - 0x06)], a, width, u32::from(to))
            }
        }
    }

    /// The operands' values.
    fn operands(&self) -> Vec<u32> {
        match self.term {
            Term::Operate { a, b, .. } | Term::Relate { a, b, .. } => vec![a, b],
            Term::Resize { a, .. } => vec![a],
        }
    }

    /// The widths of the operands' variables, which are the first, and of the
    /// result's, which is the next where there is one.
    fn widths(&self) -> Vec<u8> {
        match self.term {
            Term::Operate { .. } => vec![self.width; 3],
            Term::Relate { .. } => vec![self.width; 2],
            Term::Resize { to, .. } => vec![self.width, to],
        }
    }

    /// The command that computes the result, or an if with empty arms.
    fn commands(&self) -> Vec<u8> {
        match self.term {
            Term::Operate { code, .. } => vec![code, 2, 0, 1],
            Term::Relate { number, .. } => vec![0x0B, number, 0, 1, 0x0C, 0x0D],
            Term::Resize { code, .. } => vec![code, 1, 0],
        }
    }

    /// Words for all variables: the operands, and for the result's variable what
    /// the result is not.
    fn with_leftover(&self) -> Vec<u32> {
        let mut words = self.operands();
        if let Some(&width) = self.widths().get(words.len()) {
            words.push(!self.result & (u32::MAX >> (32 - width)));
        }
        words
    }

    /// Words for all variables that are nothing but ones.
    fn all_ones(&self) -> Vec<u32> {
        let ones = |&width: &u8| u32::MAX >> (32 - width);
        self.widths().iter().map(ones).collect()
    }

    /// A routine that takes the operands as parameters.
    fn of_parameters(&self) -> Vec<u8> {
        let (widths, operands) = (self.widths(), self.operands());
        let mut routine = vec![1, widths.len() as u8];
        routine.extend(&widths);
        routine.extend([operands.len() as u8, 0]);
        routine.extend(self.commands());
        routine.push(0);
        routine
    }

    /// A routine that sets the operands itself, whatever was left.
    fn of_constants(&self) -> Vec<u8> {
        let widths = self.widths();
        let mut routine = vec![1, widths.len() as u8];
        routine.extend(&widths);
        routine.extend([0, 0]);
        for (variable, operand) in self.operands().into_iter().enumerate() {
            routine.extend([0x01, variable as u8]);
            routine.extend(operand.to_le_bytes());
        }
        routine.extend(self.commands());
        routine.push(0);
        routine
    }

    /// Where a run leaves the result: in the last value, or in the trail, by
    /// whether the first arm was taken.
    fn result_of(&self, values: &[u32], trail: &[u8]) -> u32 {
        match self.term {
            Term::Relate { .. } => u32::from(trail[0] == 0),
            _ => values[self.widths().len() - 1],
        }
    }

    /// A routine that takes the operands and one word more as parameters and
    /// comes to its access just where that word is the result.
    fn of_expected(&self) -> Vec<u8> {
        let (operands, widths) = (self.operands().len() as u8, self.widths());
        // The result's variable comes last, behind the word that is expected.
        let result = widths[widths.len() - 1];
        let mut routine = vec![1, operands + 2];
        routine.extend(&widths[..usize::from(operands)]);
        routine.extend([result, result, operands + 1, 1, 1, 0]);
        let (expected, found) = (operands, operands + 1);
        match self.term {
            Term::Operate { code, .. } => routine.extend([code, found, 0, 1]),
            Term::Resize { code, .. } => routine.extend([code, found, 0]),
            // The word is 1 if the relation is to hold, 0 if it is not.
            Term::Relate { number, .. } => {
                routine.extend([0x01, found, 0, 0, 0, 0]);
                routine.extend([0x0B, number, 0, 1, 0x01, found, 1, 0, 0, 0, 0x0C, 0x0D]);
            }
        }
        routine.extend([0x0B, 0, found, expected, 0x0A, 0, 0, 0, 0x0C, 0x0D, 0]);
        routine
    }
}

#[test]
fn arithmetic_agrees() {
    let vectors = vectors();
    assert!(vectors.len() > 3000);
    for vector in vectors {
        assert_eq!(vector.by_arithmetic(), vector.result, "{}", vector.line);
    }
}

/// Each kind of division stands among the vectors at every width; a quotient
/// above 1 of a divisor above 1 needs three bits.
#[test]
fn every_kind_of_division_is_there() {
    type Kind = (&'static str, fn(u32, u32) -> bool);
    let kinds: [Kind; 6] = [
        ("zero by zero", |a, b| a == 0 && b == 0),
        ("a divisor of zero", |a, b| a != 0 && b == 0),
        ("a divisor of one", |a, b| a != 0 && b == 1),
        ("equal operands", |a, b| a == b && b != 0),
        ("a dividend below its divisor", |a, b| a < b),
        ("a quotient above 1", |a, b| b > 1 && a / b > 1),
    ];
    let vectors = vectors();
    for wanted in [Operation::Quotient, Operation::Remainder] {
        for width in 1..=32 {
            let is_there = |holds: fn(u32, u32) -> bool| {
                vectors.iter().any(|vector| match vector.term {
                    Term::Operate {
                        operation, a, b, ..
                    } => operation == wanted && vector.width == width && holds(a, b),
                    _ => false,
                })
            };
            for (name, holds) in &kinds[..if width < 3 { 5 } else { 6 }] {
                assert!(is_there(*holds), "{wanted:?} in {width} bits: {name}");
            }
        }
    }
}

#[test]
fn runs_agree() {
    for vector in vectors() {
        let routines = [
            (vector.of_parameters(), vector.with_leftover()),
            (vector.of_constants(), vector.all_ones()),
        ];
        for (routine, inputs) in routines {
            let run = oracle::run(&routine, &inputs, 4, 1).expect("an accepted run");
            assert_eq!(run.outcome, Outcome::Ended);
            let trail: Vec<u8> = run.trail.iter().map(|arm| arm.byte()).collect();
            let by_oracle = vector.result_of(&run.values, &trail);
            assert_eq!(by_oracle, vector.result, "{}", vector.line);

            let (mut values, mut trail, mut answer) = ([0; 4], [9; 1], [9; ANSWER_LEN]);
            let status = pellet::run(&routine, &inputs, &mut values, &mut trail, &mut answer);
            assert_eq!((status, answer[0]), (0, 0), "{}", vector.line);
            let by_library = vector.result_of(&values, &trail);
            assert_eq!(by_library, vector.result, "{}", vector.line);
        }
    }
}

/// Unit propagation over the library's clauses: the access is arrived at with
/// z3's result and not with one that differs in its lowest bit.
#[test]
fn circuits_agree() {
    for vector in vectors() {
        for (expected, arrives) in [(vector.result, true), (vector.result ^ 1, false)] {
            let mut inputs = vector.operands();
            // The last is left in the result's variable.
            inputs.extend([expected, vector.result ^ 1]);
            let found = arrival(&vector.of_expected(), &inputs);
            assert_eq!(found, Some(arrives), "{} with {expected}", vector.line);
        }
    }
}

/// What the arrival literal of access 0 is, by way of the first arm of the last
/// if, all others being free.
fn arrival(routine: &[u8], inputs: &[u32]) -> Option<bool> {
    let parsed = oracle::parse(routine).expect("a valid routine");
    let mut decisions = vec![2; parsed.ifs];
    decisions[parsed.ifs - 1] = 0;
    let needed = oracle::measure(routine, 0, 0, &decisions).expect("a valid lead");
    let (mut words, mut starts) = (vec![0; needed.words], vec![0; needed.clauses]);
    let mut answer = [0; ANSWER_LEN];
    let lent = (&mut words, &mut starts);
    let status = pellet::translate(routine, 0, 0, &decisions, lent.0, lent.1, &mut answer);
    assert_eq!(status, 0);
    let clauses = read_clauses(&words, &starts, needed.clauses);
    let mut assignment = needed.assignment(inputs);
    propagate(clauses.first(clauses.len() - 2), &mut assignment).expect("no conflict");
    assignment.value(clauses.get(clauses.len() - 2)[0])
}
