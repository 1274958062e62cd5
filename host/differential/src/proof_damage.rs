//! Damage to good proofs that aims at one of the refusals 17 to 25. What a
//! damaged proof is then refused for is the oracle's to say, not assumed here.

use crate::damage::{append, damage_once, Text};
use crate::proof_draft::{encode, offset, Command, Refutation, StepSite};
use crate::rng::Rng;
use std::ops::RangeInclusive;

/// The numbers that can be aimed at.
pub const AIMS: RangeInclusive<usize> = 17..=25;

/// A proof as it is handed in: its bytes, and the entries lent for it.
pub struct Attempt {
    pub text: Text,
    pub words: usize,
    pub starts: usize,
}

impl Attempt {
    /// The proof as it is, with just enough room.
    pub fn good(refutation: &Refutation) -> Self {
        let (words, starts) = refutation.needed();
        Attempt {
            text: Text::new(encode(&refutation.commands)),
            words,
            starts,
        }
    }

    /// The proof with a fault that aims at this refusal, now and then with a
    /// second fault, so that the order of the refusals matters.
    pub fn damaged(rng: &mut Rng, refutation: &Refutation, aim: usize) -> Self {
        let mut attempt = Attempt::good(refutation);
        match aim {
            17 => unreadable(rng, refutation, &mut attempt.text),
            24 => append(rng, &mut attempt.text),
            25 => attempt.shrink(rng, refutation),
            _ => {
                let mut changed = refutation.clone();
                spoil(rng, &mut changed, aim);
                attempt.text.bytes = encode(&changed.commands);
                // Mostly room for what was put in, so that nothing is refused
                // for want of it.
                if rng.chance(80) {
                    attempt.words += 4;
                    attempt.starts += 1;
                }
            }
        }
        if rng.chance(10) {
            damage_once(rng, &mut attempt.text);
        }
        if rng.chance(5) {
            attempt.shrink(rng, refutation);
        }
        attempt
    }

    /// Takes room away, but leaves what the given clauses take.
    fn shrink(&mut self, rng: &mut Rng, refutation: &Refutation) {
        let (words, starts) = refutation.needed();
        if rng.chance(65) {
            self.words = rng.within(refutation.given_words(), words - 1);
        } else {
            self.starts = rng.within(refutation.clauses.len(), starts - 1);
        }
    }
}

/// An unknown command, or the proof cut at a command or inside one.
fn unreadable(rng: &mut Rng, refutation: &Refutation, text: &mut Text) {
    let command = rng.below(refutation.commands.len());
    let at = offset(&refutation.commands, command);
    let len = refutation.commands[command].byte_len();
    match rng.below(4) {
        0 | 1 => text.bytes[at] = rng.pick(&[4, 5, 0x10, 0x81, 0x82, 255]),
        2 => text.truncate(at),
        _ => text.truncate(at + rng.below(len)),
    }
}

fn spoil(rng: &mut Rng, refutation: &mut Refutation, aim: usize) {
    let steps = refutation.steps();
    let step = &steps[rng.below(steps.len())];
    match aim {
        18 => literal(rng, refutation, step),
        19 => unknown_clause(rng, refutation, step),
        20 => useless_hint(rng, refutation, step),
        21 => early_close(rng, refutation, step),
        22 => late_hint(rng, refutation, step),
        23 => end(rng, refutation),
        _ => unreachable!("no such aim"),
    }
}

/// A literal that is not of a variable, twice, with its opposite, or after a
/// hint.
fn literal(rng: &mut Rng, refutation: &mut Refutation, step: &StepSite) {
    let variables = refutation.variables;
    let some = 2 * rng.within(1, variables as usize) as u32 + rng.below(2) as u32;
    let literals = step.literals.clone();
    let place = rng.within(literals.start, literals.end);
    let (place, literal) = match rng.below(4) {
        0 => (place, outside(rng, variables)),
        1 => (rng.within(step.hints.start + 1, step.close()), some),
        _ if literals.is_empty() => {
            let twice = some ^ rng.below(2) as u32;
            refutation.commands.insert(place, Command::Literal(some));
            (place + 1, twice)
        }
        _ => {
            let earlier = match refutation.commands[rng.within(literals.start, literals.end - 1)] {
                Command::Literal(literal) => literal,
                _ => unreachable!("a step's literals come first"),
            };
            (place, earlier ^ rng.below(2) as u32)
        }
    };
    refutation.commands.insert(place, Command::Literal(literal));
}

fn outside(rng: &mut Rng, variables: u32) -> u32 {
    let first = 2 * variables + 2;
    rng.pick(&[0, 1, first, first, first + 1, 1 << 31, u32::MAX])
}

/// A hint of a clause that comes later: its own, another step's, or none's.
fn unknown_clause(rng: &mut Rng, refutation: &mut Refutation, step: &StepSite) {
    let own = step.number;
    let number = rng.pick(&[own, own, own + 1, own + 7, 1 << 31, u32::MAX]);
    let place = rng.within(step.hints.start, step.close());
    put(rng, refutation, place, step.close(), number);
}

/// Puts a hint at this place, or in place of the one that stands there.
fn put(rng: &mut Rng, refutation: &mut Refutation, place: usize, close: usize, number: u32) {
    let hint = Command::Hint(number);
    if place < close && rng.chance(50) {
        refutation.commands[place] = hint;
    } else {
        refutation.commands.insert(place, hint);
    }
}

/// Some other hint, often of a step's clause, one twice, two swapped, or one left
/// out.
fn useless_hint(rng: &mut Rng, refutation: &mut Refutation, step: &StepSite) {
    let place = rng.within(step.hints.start, step.close() - 1);
    let commands = &mut refutation.commands;
    match rng.below(5) {
        0 | 1 => {
            let (given, own) = (refutation.clauses.len(), step.number as usize);
            let first = if given < own {
                rng.pick(&[0, given])
            } else {
                0
            };
            let number = rng.within(first, own - 1) as u32;
            put(rng, refutation, place, step.close(), number);
        }
        2 => commands.insert(place, commands[place]),
        3 => commands.swap(place, rng.within(step.hints.start, step.close() - 1)),
        _ => drop(commands.remove(place)),
    }
}

/// The last hint left out, all of them, or a close before it.
fn early_close(rng: &mut Rng, refutation: &mut Refutation, step: &StepSite) {
    let commands = &mut refutation.commands;
    match rng.below(3) {
        0 => drop(commands.remove(step.close() - 1)),
        1 => drop(commands.drain(step.hints.clone())),
        _ => {
            let place = rng.within(step.literals.start, step.close() - 1);
            commands.insert(place, Command::Close);
        }
    }
}

/// A hint after the conflict: the last one again, some other, or one that
/// would be refused anyway.
fn late_hint(rng: &mut Rng, refutation: &mut Refutation, step: &StepSite) {
    let commands = &mut refutation.commands;
    let hint = match rng.below(8) {
        0 => Command::Hint(step.number),
        1 | 2 => commands[step.close() - 1],
        _ => Command::Hint(rng.below(step.number as usize) as u32),
    };
    commands.insert(step.close(), hint);
}

/// An end that comes early, with or without what follows, or a command between
/// the empty clause and the end.
fn end(rng: &mut Rng, refutation: &mut Refutation) {
    let commands = &mut refutation.commands;
    let last = commands.len() - 1;
    if rng.chance(50) {
        let late = match rng.below(5) {
            0 => Command::Close,
            1 => Command::Literal(outside(rng, refutation.variables)),
            2 => Command::Literal(2),
            3 => Command::Hint(u32::MAX),
            _ => Command::Hint(0),
        };
        commands.insert(last, late);
        return;
    }
    let place = rng.below(last);
    if rng.chance(50) {
        commands.truncate(place);
    }
    commands.insert(place, Command::End);
}
