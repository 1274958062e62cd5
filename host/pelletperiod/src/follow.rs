//! Takes over the hints of an LRAT proof: each step is followed by its hints,
//! and those that its conflict does not go back to are left out.

use crate::elaborate::RAT;
use crate::progress::Count;
use crate::proof::Step;
use crate::solver_proof::Lrat;
use crate::store::{distinct, Store, Trail, NONE};
use std::collections::{HashMap, HashSet};

/// The steps of a proof of these clauses, ending with the empty clause. In LRAT
/// the clauses of the file have the numbers from 1 on.
pub fn follow<'a>(
    given: impl Iterator<Item = &'a [u32]>,
    variables: u32,
    lines: &[Lrat],
    count: &Count,
) -> Result<Vec<Step>, String> {
    let mut store = Store::default();
    let mut numbers = HashMap::new();
    for clause in given {
        let number = store.push(&distinct(clause).unwrap_or_default());
        numbers.insert(u64::from(number) + 1, number);
    }
    let mut trail = Trail::new(variables);
    let mut steps = Vec::new();
    for (k, line) in lines.iter().enumerate() {
        count.set(k);
        // One that says nothing is of no use to any later step.
        let literals = match distinct(&line.literals) {
            Some(literals) => literals,
            None => continue,
        };
        let step = (hints_of(line, &numbers))
            .and_then(|hints| follow_step(&store, &mut trail, literals, &hints))
            .map_err(|message| format!("proof line {}: {message}", line.line))?;
        numbers.insert(line.number, store.push(&step.literals));
        let is_empty = step.literals.is_empty();
        steps.push(step);
        if is_empty {
            return Ok(steps);
        }
    }
    Err("the proof ends before the empty clause: is it whole?".to_string())
}

/// The hints of a step by the numbers that the judge gives the clauses.
fn hints_of(line: &Lrat, numbers: &HashMap<u64, u32>) -> Result<Vec<u32>, String> {
    let number = |hint: &u64| {
        let number = numbers.get(hint).copied();
        number.ok_or_else(|| format!("hint {hint} is no clause of the file or of a step before"))
    };
    line.hints.iter().map(number).collect()
}

/// Follows hints up to a conflict. A clause that is true already is passed over.
fn follow_step(
    store: &Store,
    trail: &mut Trail,
    literals: Vec<u32>,
    hints: &[u32],
) -> Result<Step, String> {
    trail.undo(0);
    for literal in &literals {
        trail.make_true(literal ^ 1, NONE);
    }
    for &hint in hints {
        let clause = store.get(hint);
        if clause.iter().any(|&l| trail.value(l) == Some(true)) {
            continue;
        }
        let mut left = clause.iter().filter(|&&l| trail.value(l).is_none());
        match (left.next(), left.next()) {
            (None, _) => {
                let hints = trace(store, trail, hint);
                return Ok(Step { literals, hints });
            }
            (Some(&literal), None) => trail.make_true(literal, hint),
            (Some(_), Some(_)) => return Err(RAT.to_string()),
        }
    }
    Err(RAT.to_string())
}

/// The clauses that a conflict goes back to, in the order of the trail.
fn trace(store: &Store, trail: &Trail, conflict: u32) -> Vec<u32> {
    let mut hints = vec![conflict];
    let mut needed: HashSet<u32> = store.get(conflict).iter().map(|l| l / 2).collect();
    for &literal in trail.made.iter().rev() {
        let reason = trail.reason(literal);
        if reason != NONE && needed.contains(&(literal / 2)) {
            hints.push(reason);
            needed.extend(store.get(reason).iter().map(|l| l / 2));
        }
    }
    hints.reverse();
    hints
}
