//! What the library counts in a routine.

use crate::refused::{accepted, Refused};

/// The counts of a routine that is not refused.
#[derive(Clone, Copy, Debug)]
pub struct Counts {
    pub variables: usize,
    pub parameters: usize,
    pub arrays: usize,
    pub ifs: usize,
    pub accesses: usize,
    pub reads: usize,
    /// The offset of the first command.
    pub first_command: usize,
}

impl Counts {
    pub fn of(routine: &[u8]) -> Result<Self, Refused> {
        let mut answer = [0; pellet::ANSWER_LEN];
        accepted(pellet::check(routine, &mut answer), &answer)?;
        let [variables, parameters, arrays, ifs, accesses, reads, first_command, ..] =
            answer.map(|count| count as usize);
        Ok(Counts {
            variables,
            parameters,
            arrays,
            ifs,
            accesses,
            reads,
            first_command,
        })
    }

    /// How many words an input list has: one for each variable, then one for
    /// each read.
    pub fn inputs(&self) -> usize {
        self.variables + self.reads
    }
}
