//! The one value of each gate in the clauses of a routine that sets its variables
//! before it uses them: none is made of an input's bits, and each comes behind
//! those that it is made of, so one pass over the clauses settles all.

use differential::proof_draft::{Command, Refutation};
use examples::long_report::lead;
use oracle::{translate, Clauses};

pub struct Settled {
    pub clauses: Vec<Vec<u32>>,
    pub variables: u32,
    /// For each variable its true literal; 0 for an input's bit.
    pub literals: Vec<u32>,
    /// For each gate's variable a clause of which all other literals are false.
    pub reasons: Vec<u32>,
    /// The clause that is false by these values.
    pub conflict: u32,
}

/// That every run comes to access 0 with an index below.
pub fn settle(routine: &[u8]) -> Settled {
    let mut sink = Clauses::default();
    let translation = translate(routine, 0, 0, &[], &mut sink).expect("a valid claim");
    let clauses = sink.numbers();
    let variables = translation.variables as u32;
    let mut literals = vec![0; variables as usize + 1];
    let mut reasons = vec![0; variables as usize + 1];
    let mut conflict = None;
    for (number, clause) in clauses.iter().enumerate() {
        let is_false = |literal: &u32| literals[*literal as usize / 2] == literal ^ 1;
        let mut left = clause.iter().filter(|&literal| !is_false(literal));
        match (left.next(), left.next()) {
            (None, _) => conflict = Some(number as u32),
            (Some(&literal), None) if literals[literal as usize / 2] == 0 => {
                literals[literal as usize / 2] = literal;
                reasons[literal as usize / 2] = number as u32;
            }
            _ => {}
        }
    }
    Settled {
        clauses,
        variables,
        literals,
        reasons,
        conflict: conflict.expect("the index is below"),
    }
}

impl Settled {
    /// The variables whose values make this one's reason decide it.
    pub fn made_of(&self, variable: u32) -> impl Iterator<Item = u32> + '_ {
        let reason = &self.clauses[self.reasons[variable as usize] as usize];
        let others = reason.iter().map(|literal| literal / 2);
        others.filter(move |&other| other != variable)
    }

    /// A report on the routine with these commands as its proof.
    pub fn refuted_by(self, routine: &[u8], commands: Vec<Command>) -> Refutation {
        Refutation {
            clauses: self.clauses,
            variables: self.variables,
            commands,
            lead: lead(routine),
        }
    }
}
