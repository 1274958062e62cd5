//! A claim about a routine, its clauses, and reports on it.

use crate::refused::{accepted, Refused};

/// That every run which goes the way of the decisions and comes to the access
/// has its index there on the side.
#[derive(Clone, Debug)]
pub struct Claim {
    pub routine: Vec<u8>,
    pub access: u8,
    pub side: u8,
    pub decisions: Vec<u8>,
}

/// What the clauses of a claim take, told before they are made. It may be more
/// than any buffer is used for.
#[derive(Clone, Copy, Debug, PartialEq, Eq)]
pub struct Space {
    pub clauses: usize,
    pub words: usize,
    pub variables: u32,
}

/// Clauses as the library hands them out.
#[derive(Clone, Debug)]
pub struct Translation {
    /// Each clause as the count of its literals and then the literals.
    pub words: Vec<u32>,
    pub clauses: usize,
    pub variables: u32,
}

impl Claim {
    pub fn space(&self) -> Result<Space, Refused> {
        let mut answer = [0; pellet::ANSWER_LEN];
        let code = pellet::space(
            &self.routine,
            self.access,
            self.side,
            &self.decisions,
            &mut answer,
        );
        accepted(code, &answer)?;
        let [clauses, words, variables, ..] = answer;
        Ok(Space {
            clauses: clauses as usize,
            words: words as usize,
            variables: variables as u32,
        })
    }

    pub fn translate(&self) -> Result<Translation, Refused> {
        let space = self.space()?;
        // Never more are used: where more are told, the library refuses these.
        let mut words = vec![0; space.words.min(pellet::MAX_ENTRIES)];
        let mut starts = vec![0; space.clauses.min(pellet::MAX_ENTRIES)];
        let mut answer = [0; pellet::ANSWER_LEN];
        let code = pellet::translate(
            &self.routine,
            self.access,
            self.side,
            &self.decisions,
            &mut words,
            &mut starts,
            &mut answer,
        );
        accepted(code, &answer)?;
        let [clauses, _, variables, ..] = answer;
        Ok(Translation {
            words,
            clauses: clauses as usize,
            variables: variables as u32,
        })
    }

    /// A report of this witness and these commands of a proof.
    pub fn report(&self, witness: &[u32], proof: &[u8]) -> Vec<u8> {
        let mut report = vec![self.access, self.side];
        report.extend(&self.decisions);
        report.extend(witness.iter().flat_map(|word| word.to_le_bytes()));
        report.extend(proof);
        report
    }

    pub fn side_name(&self) -> &'static str {
        side_name(u64::from(self.side))
    }
}

pub fn side_name(side: u64) -> &'static str {
    if side == 0 {
        "below"
    } else {
        "above"
    }
}

impl Translation {
    pub fn iter(&self) -> impl Iterator<Item = &[u32]> {
        let mut rest = self.words.as_slice();
        std::iter::from_fn(move || {
            let (&count, after) = rest.split_first()?;
            let (literals, next) = after.split_at(count as usize);
            rest = next;
            Some(literals)
        })
    }

    /// The literal that is true for the runs that come to the access: the last
    /// clause but one.
    pub fn arrival(&self) -> u32 {
        self.words[self.words.len() - 3]
    }

    /// The literal that is true for an index on the side: the opposite of the
    /// last clause.
    pub fn side(&self) -> u32 {
        self.words[self.words.len() - 1] ^ 1
    }
}
