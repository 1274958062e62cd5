//! A search for refutations: it splits on variables, propagates, and writes a
//! step for every conflict, with the hints that led to it.

use crate::proof_draft::Command;
use crate::rng::Rng;

/// How much of what is not needed the steps have, in percent.
#[derive(Clone, Copy, Debug, Default)]
pub struct Style {
    /// Hints that decide something without need, and literals of splits that
    /// did not matter.
    pub spare: usize,
    /// Steps that close a clause which is there already.
    pub copies: usize,
}

impl Style {
    pub fn draw(rng: &mut Rng) -> Self {
        Style {
            spare: rng.pick(&[0, 0, 10, 50, 100]),
            copies: rng.pick(&[0, 0, 20, 50]),
        }
    }
}

/// A proof that nothing satisfies the clauses; none where something does, or
/// where it would take more steps than this.
pub fn refute(
    rng: &mut Rng,
    clauses: &[Vec<u32>],
    variables: u32,
    style: Style,
    max_steps: usize,
) -> Option<Vec<Command>> {
    let mut search = Search {
        rng,
        clauses: clauses.to_vec(),
        variables,
        style,
        most: clauses.len() + max_steps,
        commands: Vec::new(),
    };
    let last = search.conflict_under(&mut Vec::new())?;
    assert!(search.clauses[last].is_empty());
    search.commands.push(Command::End);
    Some(search.commands)
}

struct Search<'a> {
    rng: &'a mut Rng,
    /// The given ones and those of the steps so far, by their numbers.
    clauses: Vec<Vec<u32>>,
    variables: u32,
    style: Style,
    /// The most clauses there may be.
    most: usize,
    commands: Vec<Command>,
}

/// What splits and clauses make of the variables.
struct Trail {
    values: Vec<Option<bool>>,
    /// The literals made true, in order; a split has no clause as its reason.
    made: Vec<(u32, Option<usize>)>,
}

impl Trail {
    fn value(&self, literal: u32) -> Option<bool> {
        self.values[literal as usize / 2].map(|value| value != (literal % 2 == 1))
    }

    fn make_true(&mut self, literal: u32, reason: Option<usize>) {
        self.values[literal as usize / 2] = Some(literal % 2 == 0);
        self.made.push((literal, reason));
    }
}

enum Says {
    Nothing,
    Unit(u32),
    Conflict,
}

fn says(clause: &[u32], trail: &Trail) -> Says {
    let mut unit = None;
    for &literal in clause {
        match trail.value(literal) {
            Some(false) => {}
            // A literal that stands in the clause twice is still one.
            None if *unit.get_or_insert(literal) == literal => {}
            _ => return Says::Nothing,
        }
    }
    unit.map_or(Says::Conflict, Says::Unit)
}

/// Notes that the variables of a clause are needed.
fn need(is_needed: &mut [bool], clause: &[u32]) {
    for literal in clause {
        is_needed[*literal as usize / 2] = true;
    }
}

impl Search<'_> {
    /// Adds steps until a clause of theirs is false under the splits alone,
    /// and hands back its number.
    fn conflict_under(&mut self, splits: &mut Vec<u32>) -> Option<usize> {
        loop {
            let (trail, conflict) = self.propagate(splits);
            if let Some(conflict) = conflict {
                return self.learn(&trail, conflict);
            }
            let undecided: Vec<u32> = (1..=self.variables)
                .filter(|&variable| trail.values[variable as usize].is_none())
                .collect();
            if undecided.is_empty() {
                return None;
            }
            let literal = 2 * self.rng.pick(&undecided) + self.rng.below(2) as u32;
            splits.push(literal);
            let learned = self.conflict_under(splits)?;
            splits.pop();
            if !self.clauses[learned].contains(&(literal ^ 1)) {
                return Some(learned);
            }
        }
    }

    fn propagate(&mut self, splits: &[u32]) -> (Trail, Option<usize>) {
        let mut trail = Trail {
            values: vec![None; self.variables as usize + 1],
            made: Vec::new(),
        };
        for &literal in splits {
            trail.make_true(literal, None);
        }
        // From a clause drawn at random, so that steps come to be cited as
        // often as the clauses that they follow from.
        let (len, first) = (self.clauses.len(), self.rng.below(self.clauses.len()));
        let mut silent = 0;
        let mut number = first;
        while silent < len {
            match says(&self.clauses[number], &trail) {
                Says::Conflict => return (trail, Some(number)),
                Says::Unit(literal) => {
                    trail.make_true(literal, Some(number));
                    silent = 0;
                }
                Says::Nothing => silent += 1,
            }
            number = (number + 1) % len;
        }
        (trail, None)
    }

    /// Writes the step for a conflict: what made its clause false, what made
    /// that, and so on back to the splits.
    fn learn(&mut self, trail: &Trail, conflict: usize) -> Option<usize> {
        if self.rng.chance(self.style.copies) {
            self.copy();
        }
        let mut is_needed = vec![false; self.variables as usize + 1];
        need(&mut is_needed, &self.clauses[conflict]);
        let (mut literals, mut hints) = (Vec::new(), vec![conflict as u32]);
        for &(literal, reason) in trail.made.iter().rev() {
            if !is_needed[literal as usize / 2] && !self.rng.chance(self.style.spare) {
                continue;
            }
            match reason {
                None => literals.push(literal ^ 1),
                Some(reason) => {
                    hints.push(reason as u32);
                    need(&mut is_needed, &self.clauses[reason]);
                }
            }
        }
        hints.reverse();
        self.step(literals, &hints)
    }

    /// Closes once more the clause of some number, if it is not one that
    /// always holds. An empty one would end the proof.
    fn copy(&mut self) {
        let number = self.rng.below(self.clauses.len());
        let mut literals = self.clauses[number].clone();
        literals.sort_unstable();
        literals.dedup();
        let always_holds = literals.windows(2).any(|pair| pair[0] / 2 == pair[1] / 2);
        if !literals.is_empty() && !always_holds {
            self.step(literals, &[number as u32]);
        }
    }

    fn step(&mut self, mut literals: Vec<u32>, hints: &[u32]) -> Option<usize> {
        if self.clauses.len() >= self.most {
            return None;
        }
        for k in 1..literals.len() {
            literals.swap(k, self.rng.below(k + 1));
        }
        let of_step = literals.iter().map(|&literal| Command::Literal(literal));
        self.commands.extend(of_step);
        let of_step = hints.iter().map(|&number| Command::Hint(number));
        self.commands.extend(of_step);
        self.commands.push(Command::Close);
        self.clauses.push(literals);
        Some(self.clauses.len() - 1)
    }
}
