//! Reports of any number of short steps: over few clauses, so that what it takes
//! grows with the steps and with nothing else, and over very many.

use crate::generator::{beside, negative, ASIDE_VARIABLES};
use crate::settled::{settle, Settled};
use differential::proof_draft::{Command, Refutation};
use differential::rng::Rng;
use std::collections::BTreeSet;

/// How far back a step cites, so that no report is longer on the way to what
/// it cites than another.
const BACK: usize = 64;

/// So many steps: each sum bit is settled, then settled again by what was
/// settled before, and the last step is the empty clause.
pub fn report(seed: u64, steps: usize) -> (Vec<u8>, Refutation) {
    let routine = negative(0);
    let settled = settle(&routine);
    let commands = commands(&settled, &mut Rng::for_case(seed, 1), steps);
    let refutation = settled.refuted_by(&routine, commands);
    (routine, refutation)
}

/// So many steps over the clauses of so many rounds: each is one of these
/// clauses, drawn from all, and cites it. What it takes is waiting for memory.
pub fn scattered(seed: u64, rounds: usize, steps: usize) -> (Vec<u8>, Refutation) {
    let routine = beside(rounds);
    let settled = settle(&routine);
    let mut rng = Rng::for_case(seed, 2);
    let mut commands = Vec::new();
    for _ in 1..steps {
        let (number, clause) = loop {
            let number = rng.below(settled.clauses.len());
            let clause = &settled.clauses[number];
            let variables: BTreeSet<u32> = clause.iter().map(|literal| literal / 2).collect();
            if variables.len() == clause.len() {
                break (number as u32, clause);
            }
        };
        commands.extend(clause.iter().map(|&literal| Command::Literal(literal)));
        commands.extend([Command::Hint(number), Command::Close]);
    }
    commands.extend([Command::Hint(0), Command::Hint(settled.conflict)]);
    commands.extend([Command::Close, Command::End]);
    let refutation = settled.refuted_by(&routine, commands);
    (routine, refutation)
}

fn commands(settled: &Settled, rng: &mut Rng, steps: usize) -> Vec<Command> {
    let mut commands = Vec::new();
    let given = settled.clauses.len() as u32;
    let literal = |variable: u32| Command::Literal(settled.literals[variable as usize]);
    // The variable that each step settled.
    let mut closed: Vec<u32> = Vec::new();
    for variable in ASIDE_VARIABLES {
        let made_of: BTreeSet<u32> = settled.made_of(variable).collect();
        let number = |&other: &u32| match other {
            1 => 0,
            _ => given + other - ASIDE_VARIABLES.start,
        };
        commands.push(literal(variable));
        commands.extend(made_of.iter().map(number).map(Command::Hint));
        let reason = settled.reasons[variable as usize];
        commands.extend([Command::Hint(reason), Command::Close]);
        closed.push(variable);
    }
    while closed.len() + 1 < steps {
        let mut draw = || closed.len() - 1 - rng.below(BACK);
        let (one, other) = (draw(), draw());
        let hint = |step: usize| Command::Hint(given + step as u32);
        commands.push(literal(closed[one]));
        if closed[one] != closed[other] {
            commands.push(hint(other));
        }
        commands.extend([hint(one), Command::Close]);
        closed.push(closed[one]);
    }
    commands.extend([Command::Hint(0), Command::Hint(settled.conflict)]);
    commands.extend([Command::Close, Command::End]);
    commands
}
