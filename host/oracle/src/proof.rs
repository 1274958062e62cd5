//! The check of a proof, and the refusals 17 to 25.
//!
//! A clause is a list and what is decided is a map, made anew for each step.
//! Room in the lent buffers is only counted.

use crate::proof_command::{read, Command};
use crate::refusal::{
    Refusal, AFTER_CONFLICT, AFTER_PROOF, EMPTY_CLAUSE, NO_CONFLICT, NO_ROOM, PROOF_COMMAND,
    PROOF_LITERAL, UNKNOWN_CLAUSE, USELESS_HINT,
};
use crate::translation::MAX_ENTRIES;
use std::collections::HashMap;
use std::mem::take;

/// What an accepted proof came to.
#[derive(Clone, Copy, Debug, Default, PartialEq, Eq)]
pub struct Totals {
    /// Steps closed.
    pub steps: usize,
    /// Hints read.
    pub hints: usize,
}

/// Checks the proof that begins at this offset of a report, against clauses
/// over the variables 1 to `variables`, with so many entries lent.
pub fn check_proof(
    report: &[u8],
    from: usize,
    clauses: &[Vec<u32>],
    variables: u32,
    words_limit: usize,
    starts_limit: usize,
) -> Result<Totals, Refusal> {
    follow_proof(report, from, clauses, variables, words_limit, starts_limit).verdict
}

/// As `check_proof`, and hands back what is known where the check ends.
pub fn follow_proof(
    report: &[u8],
    from: usize,
    clauses: &[Vec<u32>],
    variables: u32,
    words_limit: usize,
    starts_limit: usize,
) -> Followed {
    let mut checker = Checker {
        report,
        given: clauses,
        variables,
        words_limit: words_limit.min(MAX_ENTRIES),
        starts_limit: starts_limit.min(MAX_ENTRIES),
        words: clauses.iter().map(|clause| 1 + clause.len()).sum(),
        closed: Vec::new(),
        has_empty: false,
        step: Step::default(),
        totals: Totals::default(),
        cited: 0,
    };
    let verdict = checker.follow(from);
    Followed {
        verdict,
        closed: checker.closed,
        open: checker.step.literals,
        decided: checker.step.decided,
        cited: checker.cited,
    }
}

/// A proof followed to its end or to its first fault. A command that is
/// refused has changed nothing; a step that is closed decides nothing more.
pub struct Followed {
    pub verdict: Result<Totals, Refusal>,
    /// The clauses of the steps closed.
    pub closed: Vec<Vec<u32>>,
    /// The literals of the step that is open.
    pub open: Vec<u32>,
    /// The variables that the open step has decided.
    pub decided: HashMap<u32, bool>,
    /// How many hints were of the clauses of steps.
    pub cited: usize,
}

/// The step that is open: it begins with every variable undecided.
#[derive(Default)]
struct Step {
    literals: Vec<u32>,
    decided: HashMap<u32, bool>,
    has_hint: bool,
    has_conflict: bool,
}

impl Step {
    fn value(&self, literal: u32) -> Option<bool> {
        let value = self.decided.get(&(literal / 2))?;
        Some(*value != (literal % 2 == 1))
    }

    fn decide(&mut self, literal: u32, value: bool) {
        self.decided
            .insert(literal / 2, value != (literal % 2 == 1));
    }
}

struct Checker<'a> {
    report: &'a [u8],
    given: &'a [Vec<u32>],
    variables: u32,
    words_limit: usize,
    starts_limit: usize,
    /// What the clauses, given and closed, take.
    words: usize,
    closed: Vec<Vec<u32>>,
    /// Whether a step has closed the empty clause.
    has_empty: bool,
    step: Step,
    totals: Totals,
    /// Hints of the clauses of steps.
    cited: usize,
}

impl Checker<'_> {
    fn follow(&mut self, from: usize) -> Result<Totals, Refusal> {
        let mut at = from;
        loop {
            let refused = |number| Refusal::new(number, at);
            let (command, next) = read(self.report, at).ok_or_else(|| refused(PROOF_COMMAND))?;
            match command {
                Command::End if self.has_empty => return self.after_end(next),
                Command::End => return Err(refused(EMPTY_CLAUSE)),
                _ if self.has_empty => return Err(refused(EMPTY_CLAUSE)),
                Command::Literal(literal) => self.literal(literal).map_err(refused)?,
                Command::Hint(number) => self.hint(number).map_err(refused)?,
                Command::Close => self.close().map_err(refused)?,
            }
            at = next;
        }
    }

    fn after_end(&self, at: usize) -> Result<Totals, Refusal> {
        if at < self.report.len() {
            return Err(Refusal::new(AFTER_PROOF, at));
        }
        Ok(self.totals)
    }

    fn literal(&mut self, literal: u32) -> Result<(), u8> {
        let variable = literal / 2;
        let is_known = (1..=self.variables).contains(&variable);
        let mut earlier = self.step.literals.iter();
        if !is_known || earlier.any(|earlier| earlier / 2 == variable) || self.step.has_hint {
            return Err(PROOF_LITERAL);
        }
        if !self.has_words_for(self.step.literals.len() + 1) {
            return Err(NO_ROOM);
        }
        self.step.literals.push(literal);
        self.step.decide(literal, false);
        Ok(())
    }

    fn hint(&mut self, number: u32) -> Result<(), u8> {
        let clause = self.clause(number as usize).ok_or(UNKNOWN_CLAUSE)?;
        if self.step.has_conflict {
            return Err(AFTER_CONFLICT);
        }
        let is_open = |literal: &u32| self.step.value(*literal) != Some(false);
        let mut open: Vec<u32> = clause.iter().copied().filter(is_open).collect();
        // A literal that stands in the clause twice is still one.
        open.sort_unstable();
        open.dedup();
        match open[..] {
            [] => self.step.has_conflict = true,
            [literal] if self.step.value(literal).is_none() => self.step.decide(literal, true),
            _ => return Err(USELESS_HINT),
        }
        self.step.has_hint = true;
        self.totals.hints += 1;
        if number as usize >= self.given.len() {
            self.cited += 1;
        }
        Ok(())
    }

    fn close(&mut self) -> Result<(), u8> {
        if !self.step.has_conflict {
            return Err(NO_CONFLICT);
        }
        let count = self.step.literals.len();
        let clauses = self.given.len() + self.closed.len();
        if !self.has_words_for(count) || clauses >= self.starts_limit {
            return Err(NO_ROOM);
        }
        self.words += 1 + count;
        self.has_empty = count == 0;
        self.closed.push(take(&mut self.step).literals);
        self.totals.steps += 1;
        Ok(())
    }

    /// The clause of this number, where there is one already.
    fn clause(&self, number: usize) -> Option<&Vec<u32>> {
        match number.checked_sub(self.given.len()) {
            None => self.given.get(number),
            Some(step) => self.closed.get(step),
        }
    }

    /// Whether the open step's count and so many literals find room.
    fn has_words_for(&self, literals: usize) -> bool {
        self.words + 1 + literals <= self.words_limit
    }
}
