//! Proofs as lists of commands, before they are bytes.

use std::ops::Range;

/// A command of a proof.
#[derive(Clone, Copy, Debug, PartialEq, Eq)]
pub enum Command {
    Literal(u32),
    Hint(u32),
    Close,
    End,
}

impl Command {
    fn encode(self, bytes: &mut Vec<u8>) {
        let (kind, argument) = match self {
            Command::End => (0, None),
            Command::Literal(literal) => (1, Some(literal)),
            Command::Hint(number) => (2, Some(number)),
            Command::Close => (3, None),
        };
        bytes.push(kind);
        if let Some(argument) = argument {
            bytes.extend(argument.to_le_bytes());
        }
    }

    /// How many bytes the command takes.
    pub fn byte_len(self) -> usize {
        match self {
            Command::Literal(_) | Command::Hint(_) => 5,
            Command::Close | Command::End => 1,
        }
    }
}

pub fn encode(commands: &[Command]) -> Vec<u8> {
    let mut bytes = Vec::new();
    for command in commands {
        command.encode(&mut bytes);
    }
    bytes
}

/// The offset of a command among the bytes.
pub fn offset(commands: &[Command], command: usize) -> usize {
    commands[..command]
        .iter()
        .map(|command| command.byte_len())
        .sum()
}

/// Clauses over the variables 1 to a count, and a proof that nothing satisfies
/// them.
#[derive(Clone, Debug)]
pub struct Refutation {
    pub clauses: Vec<Vec<u32>>,
    pub variables: u32,
    pub commands: Vec<Command>,
    /// What stands before the proof in the report.
    pub lead: Vec<u8>,
}

impl Refutation {
    /// The words that the clauses take without the steps.
    pub fn given_words(&self) -> usize {
        self.clauses.iter().map(|clause| 1 + clause.len()).sum()
    }

    /// The words and the starts that the clauses and all steps take.
    pub fn needed(&self) -> (usize, usize) {
        let count = |wanted: fn(&Command) -> bool| {
            let all = self.commands.iter();
            all.filter(|&command| wanted(command)).count()
        };
        let steps = count(|command| *command == Command::Close);
        let literals = count(|command| matches!(command, Command::Literal(_)));
        (
            self.given_words() + steps + literals,
            self.clauses.len() + steps,
        )
    }

    pub fn steps(&self) -> Vec<StepSite> {
        let mut steps: Vec<StepSite> = Vec::new();
        let mut first = 0;
        for (at, command) in self.commands.iter().enumerate() {
            if *command == Command::Close {
                let of_step = &self.commands[first..at];
                let is_literal = |command: &&Command| matches!(command, Command::Literal(_));
                let literals = of_step.iter().take_while(is_literal).count();
                steps.push(StepSite {
                    number: (self.clauses.len() + steps.len()) as u32,
                    literals: first..first + literals,
                    hints: first + literals..at,
                });
                first = at + 1;
            }
        }
        steps
    }
}

/// Where a step's commands stand; its close is where the hints end.
#[derive(Clone, Debug)]
pub struct StepSite {
    /// The number of the step's clause.
    pub number: u32,
    pub literals: Range<usize>,
    pub hints: Range<usize>,
}

impl StepSite {
    pub fn close(&self) -> usize {
        self.hints.end
    }
}
