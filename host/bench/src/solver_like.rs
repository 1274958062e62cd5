//! A report as a solver's proof would make it: its clauses have 3 to 20
//! literals, and its steps have long chains of hints.
//!
//! Every gate gets a clause: its true literal, and false literals of gates that
//! nothing depends on, more and more of them as the proof goes on, in any order,
//! so that which of them is not false cannot be foretold. A step cites the
//! gates' own clauses for some of the gates before, and the clauses of earlier
//! steps for what those are made of.

use crate::generator::{negative, ASIDE_VARIABLES, INPUT_BITS};
use crate::settled::{settle, Settled};
use differential::proof_draft::{Command, Refutation};
use differential::rng::Rng;
use std::collections::BTreeSet;

const ROUNDS: usize = 9;
/// False literals in the first clause and in the last.
const EXTRA: (usize, usize) = (2, 19);
/// Gates that a step goes through before its own.
const INNER: (usize, usize) = (10, 24);

pub fn report(seed: u64) -> (Vec<u8>, Refutation) {
    let routine = negative(ROUNDS);
    let settled = settle(&routine);
    let mut draft = Draft::new(&settled, Rng::for_case(seed, 0));
    for variable in ASIDE_VARIABLES.end..=settled.variables {
        draft.step(variable);
    }
    let commands = draft.finish();
    let refutation = settled.refuted_by(&routine, commands);
    (routine, refutation)
}

struct Draft<'a> {
    settled: &'a Settled,
    rng: Rng,
    /// False literals, of which the clauses have the first so many.
    extra: Vec<u32>,
    /// For each variable the number of its clause; clause 0 is variable 1's.
    numbers: Vec<u32>,
    next: u32,
    commands: Vec<Command>,
}

impl<'a> Draft<'a> {
    fn new(settled: &'a Settled, rng: Rng) -> Self {
        let aside = ASIDE_VARIABLES.step_by(5).take(EXTRA.1);
        Draft {
            settled,
            rng,
            extra: aside
                .map(|variable| settled.literals[variable as usize] ^ 1)
                .collect(),
            numbers: vec![0; settled.variables as usize + 1],
            next: settled.clauses.len() as u32,
            commands: Vec::new(),
        }
    }

    fn step(&mut self, variable: u32) {
        let settled = self.settled;
        let [gate, gates] = [variable, settled.variables].map(|v| (v - INPUT_BITS) as usize);
        let span = (EXTRA.1 - EXTRA.0) * gate / gates;
        let mut clause = self.extra[..EXTRA.0 + span].to_vec();
        clause.push(settled.literals[variable as usize]);
        self.rng.shuffle(&mut clause);
        self.commands
            .extend(clause.into_iter().map(Command::Literal));
        let (inner, outer) = self.chain(variable);
        let cited = outer.iter().map(|&outer| self.numbers[outer as usize]);
        self.commands.extend(cited.map(Command::Hint));
        let reasons = inner.iter().chain([&variable]);
        let reasons = reasons.map(|&inner| settled.reasons[inner as usize]);
        self.commands.extend(reasons.map(Command::Hint));
        self.close(variable);
    }

    /// The gates to go through again, and what these are made of otherwise.
    fn chain(&mut self, variable: u32) -> (BTreeSet<u32>, BTreeSet<u32>) {
        let most = self.rng.within(INNER.0, INNER.1);
        let (mut inner, mut outer) = (BTreeSet::new(), BTreeSet::new());
        let mut left: BTreeSet<u32> = self.settled.made_of(variable).collect();
        while let Some(&greatest) = left.iter().next_back() {
            left.remove(&greatest);
            if greatest == 1 || inner.len() == most {
                outer.insert(greatest);
            } else {
                inner.insert(greatest);
                left.extend(self.settled.made_of(greatest));
            }
        }
        (inner, outer)
    }

    fn close(&mut self, variable: u32) {
        self.commands.push(Command::Close);
        self.numbers[variable as usize] = self.next;
        self.next += 1;
    }

    /// Settles what nothing depends on, and with that the claim.
    fn finish(mut self) -> Vec<Command> {
        let settled = self.settled;
        for variable in ASIDE_VARIABLES {
            let made_of: BTreeSet<u32> = settled.made_of(variable).collect();
            self.commands
                .push(Command::Literal(settled.literals[variable as usize]));
            let cited = made_of.iter().map(|&other| self.numbers[other as usize]);
            self.commands.extend(cited.map(Command::Hint));
            self.commands
                .push(Command::Hint(settled.reasons[variable as usize]));
            self.close(variable);
        }
        let last = &settled.clauses[settled.conflict as usize];
        let all = self.extra.iter().chain(last);
        let cited = all.map(|&literal| self.numbers[literal as usize / 2]);
        self.commands.extend(cited.map(Command::Hint));
        self.commands.push(Command::Hint(settled.conflict));
        self.commands.extend([Command::Close, Command::End]);
        self.commands
    }
}
