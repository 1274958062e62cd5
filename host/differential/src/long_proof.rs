//! One long good proof: a chain through all variables, each step deciding the
//! next few of them.

use crate::proof_draft::{offset, Command, Refutation, StepSite};

/// The links that a step follows.
const LINKS: u32 = 10;
/// Neighbours in the chain are so far apart, so that their marks do not lie
/// next to each other either. A prime, so that the chain comes to every
/// variable, however many there are.
const STRIDE: u64 = 618_031;

/// A chain through so many variables, a multiple of ten of at least twenty. The
/// clauses are {2}, then that variable 1 and each variable of the chain make the
/// next one, and that the last one is false. Every step but the last closes the
/// variable ten links on, by clause 0, the step before and the links.
pub fn long_proof(variables: u32) -> Refutation {
    assert!(variables >= 2 * LINKS && variables % LINKS == 0);
    let literal = |place: u32| {
        let spread = u64::from(place) * STRIDE % u64::from(variables);
        2 * (1 + spread as u32)
    };
    // Place 0 is variable 1, so the first link has a doubled literal.
    let mut clauses = vec![vec![2]];
    clauses.extend((1..variables).map(|place| vec![3, literal(place - 1) ^ 1, literal(place)]));
    clauses.push(vec![literal(variables - 1) ^ 1]);
    let commands = chain(variables, literal);
    Refutation {
        clauses,
        variables,
        commands,
        lead: vec![0, 0],
    }
}

/// The clause that leads to a place of the chain has that place's number, and
/// the one that ends it the number of variables.
fn chain(variables: u32, literal: impl Fn(u32) -> u32) -> Vec<Command> {
    let mut commands = Vec::new();
    let given = variables + 1;
    let mut from = 0;
    for step in 0..variables / LINKS {
        let to = from + LINKS;
        if to < variables {
            commands.push(Command::Literal(literal(to)));
        }
        commands.push(Command::Hint(0));
        if step > 0 {
            commands.push(Command::Hint(given + step - 1));
        }
        commands.extend((from + 1..=to).map(Command::Hint));
        commands.push(Command::Close);
        from = to;
    }
    commands.push(Command::End);
    commands
}

/// Leaves one link of a step out, another hint standing in its place, and hands
/// back the offset where the proof is then to be refused: the literal of that
/// other link's end is true already.
pub fn spoil_step(refutation: &mut Refutation, step: usize) -> usize {
    let StepSite { hints, .. } = refutation.steps().swap_remove(step);
    let command = hints.end - 3;
    refutation.commands[command] = refutation.commands[command - 1];
    offset(&refutation.commands, command)
}
