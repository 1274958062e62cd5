//! The words of input lists: of which kind each is, and which variables of a
//! translation are its bits.

use crate::claim::{Claim, Translation};
use crate::counts::Counts;
use crate::refused::Refused;
use std::fmt;

/// How many bytes of operands a command has, by its byte.
const OPERANDS: [usize; 16] = [0, 5, 2, 3, 3, 3, 2, 2, 2, 3, 3, 3, 0, 0, 3, 3];
const READ: u8 = 0x09;
const WRITE: u8 = 0x0A;

/// What a word of an input list is for. A leftover is what the last pick left in
/// a variable that is no parameter, and has the variable's number.
#[derive(Clone, Copy, Debug, PartialEq, Eq)]
pub enum Name {
    Parameter(usize),
    Leftover(usize),
    Read(usize),
}

impl fmt::Display for Name {
    fn fmt(&self, f: &mut fmt::Formatter) -> fmt::Result {
        match self {
            Name::Parameter(number) => write!(f, "parameter {number}"),
            Name::Leftover(number) => write!(f, "leftover {number}"),
            Name::Read(number) => write!(f, "read {number}"),
        }
    }
}

/// A word of the input list and the variables of its bits, lowest first. A
/// read behind the named access has none, and so has that access itself.
#[derive(Clone, Debug)]
pub struct Input {
    pub name: Name,
    pub variables: Vec<u32>,
}

/// A word of the input list as the routine has it.
struct Word {
    name: Name,
    width: usize,
    /// The number of a read among the accesses.
    access: Option<usize>,
}

/// The inputs of a claim, in the order of the input list.
pub fn inputs(claim: &Claim, translation: &Translation) -> Result<Vec<Input>, Refused> {
    let mut free = free_variables(translation).into_iter();
    let before = |word: &Word| word.access.map_or(true, |k| k < usize::from(claim.access));
    let inputs = (words(&claim.routine)?.iter())
        .map(|word| Input {
            name: word.name,
            variables: match before(word) {
                true => free.by_ref().take(word.width).collect(),
                false => Vec::new(),
            },
        })
        .collect();
    assert_eq!(free.next(), None, "every other variable is a gate's");
    Ok(inputs)
}

/// The input list that an assignment extends; 0 where it has no bits.
pub fn list(inputs: &[Input], model: &[bool]) -> Vec<u32> {
    let word = |input: &Input| {
        let bits = input.variables.iter().enumerate();
        bits.map(|(k, &variable)| u32::from(model[variable as usize]) << k)
            .sum()
    };
    inputs.iter().map(word).collect()
}

/// The line that tells an input list by its kinds, each with its words in order.
/// A kind of which the routine has none is left out.
pub fn by_kind(routine: &[u8], list: &[u32]) -> Result<String, Refused> {
    let counts = Counts::of(routine)?;
    let (beginnings, reads) = list.split_at(counts.variables);
    let (parameters, leftovers) = beginnings.split_at(counts.parameters);
    let kinds = [
        ("parameters", parameters),
        ("leftovers", leftovers),
        ("reads", reads),
    ];
    let kinds: Vec<String> = (kinds.iter())
        .filter(|(_, words)| !words.is_empty())
        .map(|(kind, words)| format!("{kind} {}", in_a_row(words)))
        .collect();
    Ok(format!("inputs: {}", kinds.join(", ")))
}

/// Words as the command line takes them.
pub fn in_a_row(list: &[u32]) -> String {
    let words: Vec<String> = list.iter().map(u32::to_string).collect();
    words.join(" ")
}

/// The variables that no gate makes, variable 1 aside. Every clause of a gate
/// has the gate's variable, which is newer than those that it is made from; the
/// first clause and the last two are no gate's.
fn free_variables(translation: &Translation) -> Vec<u32> {
    let mut is_made = vec![false; translation.variables as usize + 1];
    for clause in translation.iter().take(translation.clauses - 2).skip(1) {
        let newest = clause.iter().map(|literal| literal / 2).max();
        is_made[newest.expect("a gate's clause has literals") as usize] = true;
    }
    (2..=translation.variables)
        .filter(|&variable| !is_made[variable as usize])
        .collect()
}

/// Goes through the commands of a routine that the library passes.
fn words(routine: &[u8]) -> Result<Vec<Word>, Refused> {
    let counts = Counts::of(routine)?;
    let width = |variable: usize| usize::from(routine[2 + variable]);
    let mut words: Vec<Word> = (0..counts.variables)
        .map(|k| Word {
            name: match k < counts.parameters {
                true => Name::Parameter(k),
                false => Name::Leftover(k),
            },
            width: width(k),
            access: None,
        })
        .collect();
    let (mut at, mut accesses) = (counts.first_command, 0);
    while at < routine.len() {
        let command = routine[at];
        if command == READ {
            words.push(Word {
                name: Name::Read(words.len() - counts.variables),
                width: width(usize::from(routine[at + 1])),
                access: Some(accesses),
            });
        }
        accesses += usize::from(command == READ || command == WRITE);
        at += 1 + OPERANDS[usize::from(command)];
    }
    Ok(words)
}
