//! Finds the hints for a proof that has none: each clause is taken as false,
//! what follows is followed up to a conflict, and the hints are what the
//! conflict goes back to.

use crate::progress::Count;
use crate::proof::Step;
use crate::solver_proof::Drat;
use crate::store::{distinct, Store, Trail, NONE};
use crate::watches::Watches;
use std::collections::HashMap;

/// Why a step may have no hints.
pub const RAT: &str = "this step does not follow by unit propagation from the clauses before it \
(perhaps a RAT step, which a report cannot hold): run the solver without the techniques that make \
them (cadical --plain), or see whether the proof is of these very clauses";

/// The steps of a proof of these clauses with hints, ending with the empty
/// clause.
pub fn elaborate<'a>(
    given: impl Iterator<Item = &'a [u32]>,
    variables: u32,
    lines: &[Drat],
    count: &Count,
) -> Result<Vec<Step>, String> {
    let mut search = Search::new(variables);
    search.take_given(given);
    for (k, line) in lines.iter().enumerate() {
        if search.is_finished {
            break;
        }
        count.set(k);
        match line {
            Drat::Delete(clause) => search.take_out(clause),
            Drat::Add(clause) => search
                .add(clause)
                .map_err(|_| format!("proof step {}: {RAT}", k + 1))?,
        }
    }
    match search.is_finished {
        true => Ok(search.steps),
        false => Err("the proof ends before the empty clause: is it whole?".to_string()),
    }
}

/// A clause that does not follow by unit propagation.
struct DoesNotFollow;

struct Search {
    store: Store,
    watches: Watches,
    trail: Trail,
    steps: Vec<Step>,
    /// For each variable that is settled for good, the number of the clause
    /// that has its literal alone.
    units: Vec<u32>,
    /// So many literals of the trail are settled for good.
    settled: usize,
    is_seen: Vec<bool>,
    /// The clauses by their literals as the proof has them, to take them out.
    by_literals: HashMap<u64, Vec<u32>>,
    is_finished: bool,
}

impl Search {
    fn new(variables: u32) -> Self {
        let count = variables as usize + 1;
        Search {
            store: Store::default(),
            watches: Watches::new(variables),
            trail: Trail::new(variables),
            steps: Vec::new(),
            units: vec![NONE; count],
            settled: 0,
            is_seen: vec![false; count],
            by_literals: HashMap::new(),
            is_finished: false,
        }
    }

    fn take_given<'a>(&mut self, given: impl Iterator<Item = &'a [u32]>) {
        for clause in given {
            // One that says nothing keeps its number, and is never looked at.
            let literals = distinct(clause);
            let number = self.store.push(literals.as_deref().unwrap_or(&[]));
            if let Some(literals) = literals {
                self.note(&literals, number);
                if literals.len() > 1 {
                    self.watches.put(&self.store, number);
                } else if self.settle_unit(number) != NONE {
                    return self.finish(number);
                }
            }
        }
        self.settle();
    }

    /// Makes the only literal of a clause true, or finds it false, or the
    /// clause empty: then it hands back the clause.
    fn settle_unit(&mut self, number: u32) -> u32 {
        let literal = match self.store.get(number) {
            [literal] => *literal,
            _ => return number,
        };
        match self.trail.value(literal) {
            Some(false) => return number,
            Some(true) => {}
            None => self.trail.make_true(literal, number),
        }
        NONE
    }

    /// Follows what is settled, and gives every literal that it settles a
    /// clause of its own, so that a step needs one hint for it.
    fn settle(&mut self) {
        let from = self.settled;
        let conflict = (self.watches).propagate(&mut self.store, &mut self.trail, from);
        match conflict {
            NONE => self.make_units(),
            _ => self.finish(conflict),
        }
    }

    fn make_units(&mut self) {
        for k in self.settled..self.trail.made.len() {
            let literal = self.trail.made[k];
            let reason = self.trail.reason(literal);
            let unit = match self.store.get(reason).len() {
                1 => reason,
                _ => {
                    let hints = self.units_against(reason, literal);
                    self.close(&[literal], hints)
                }
            };
            self.units[literal as usize / 2] = unit;
        }
        self.settled = self.trail.made.len();
    }

    /// The clauses that make every literal of a clause false but this one, and
    /// the clause itself.
    fn units_against(&self, clause: u32, but: u32) -> Vec<u32> {
        let literals = self.store.get(clause).iter();
        let others = literals.filter(|&&literal| literal != but);
        others
            .map(|&literal| self.units[literal as usize / 2])
            .chain([clause])
            .collect()
    }

    /// Closes the empty clause by one of which all literals are settled false.
    fn finish(&mut self, conflict: u32) {
        self.make_units();
        let hints = self.units_against(conflict, NONE);
        self.close(&[], hints);
    }

    /// Adds a step and hands back its number.
    fn close(&mut self, literals: &[u32], hints: Vec<u32>) -> u32 {
        self.is_finished |= literals.is_empty();
        self.steps.push(Step {
            literals: literals.to_vec(),
            hints,
        });
        self.store.push(literals)
    }

    /// Adds a step for a clause of the proof, or for a part of it that follows
    /// as well. One that has a true literal is not needed for anything.
    fn add(&mut self, clause: &[u32]) -> Result<(), DoesNotFollow> {
        let is_true = |&literal: &u32| self.trail.value(literal) == Some(true);
        let literals = match distinct(clause) {
            Some(literals) if !literals.iter().any(is_true) => literals,
            _ => return Ok(()),
        };
        for &literal in &literals {
            if self.trail.value(literal).is_none() {
                self.trail.make_true(literal ^ 1, NONE);
            }
        }
        let from = self.settled;
        let conflict = (self.watches).propagate(&mut self.store, &mut self.trail, from);
        if conflict == NONE {
            return Err(DoesNotFollow);
        }
        let Step {
            literals: needed,
            hints,
        } = self.trace(conflict);
        self.trail.undo(self.settled);
        let number = self.close(&needed, hints);
        self.note(&literals, number);
        match needed.len() {
            0 => {}
            1 => {
                self.settle_unit(number);
                self.settle();
            }
            _ => self.watches.put(&self.store, number),
        }
        Ok(())
    }

    /// Goes back from a conflict to what was settled and to the literals taken
    /// as false, of which it may not need all.
    fn trace(&mut self, conflict: u32) -> Step {
        let (mut units, mut hints) = (Vec::new(), vec![conflict]);
        let mut literals = Vec::new();
        self.see(conflict, &mut units);
        for k in (self.settled..self.trail.made.len()).rev() {
            let literal = self.trail.made[k];
            if !std::mem::take(&mut self.is_seen[literal as usize / 2]) {
                continue;
            }
            match self.trail.reason(literal) {
                NONE => literals.push(literal ^ 1),
                reason => {
                    hints.push(reason);
                    self.see(reason, &mut units);
                    // It is the reason's own literal that was seen again.
                    self.is_seen[literal as usize / 2] = false;
                }
            }
        }
        for &unit in &units {
            let literal = self.store.get(unit)[0];
            self.is_seen[literal as usize / 2] = false;
        }
        hints.extend(units);
        hints.reverse();
        literals.reverse();
        Step { literals, hints }
    }

    /// Marks the variables of a clause; one settled for good goes back to its
    /// unit clause and no further.
    fn see(&mut self, clause: u32, units: &mut Vec<u32>) {
        for &literal in self.store.get(clause) {
            let variable = literal as usize / 2;
            if !self.is_seen[variable] && self.units[variable] != NONE {
                units.push(self.units[variable]);
            }
            self.is_seen[variable] = true;
        }
    }

    fn note(&mut self, literals: &[u32], number: u32) {
        let numbers = self.by_literals.entry(key(literals));
        numbers.or_default().push(number);
    }

    /// Makes the search faster; hints may still name the clause.
    fn take_out(&mut self, clause: &[u32]) {
        let literals = match distinct(clause) {
            Some(literals) => literals,
            None => return,
        };
        let numbers = self.by_literals.get_mut(&key(&literals));
        if let Some(number) = numbers.and_then(|numbers| numbers.pop()) {
            self.watches.take_out(number);
        }
    }
}

/// A number for a set of literals. Should two sets have the same, a clause too
/// many is taken out and a step may be missed, but no wrong one is made.
fn key(literals: &[u32]) -> u64 {
    let mixed = literals.iter().map(|&literal| {
        let mut x = u64::from(literal).wrapping_mul(0x9E37_79B9_7F4A_7C15);
        x = (x ^ (x >> 32)).wrapping_mul(0xD6E8_FEB8_6659_FD93);
        x ^ (x >> 29)
    });
    mixed.fold(0, u64::wrapping_add)
}
