//! The long comparison: random claims, each decided by z3 from the routine and
//! by cadical from the clauses; what cadical finds becomes a report or a run,
//! and the library judges the one and runs the other.

#![forbid(unsafe_code)]

mod check;
mod draw;
mod forge;
mod guarded;
mod identity;
mod smt;
mod z3;

use check::check;
use differential::rng::Rng;
use pelletperiod::{solver, Solver};
use std::collections::BTreeMap;
use std::process::ExitCode;
use std::time::{Duration, Instant};
use z3::Verdict;

const HELP: &str = "\
usage: crosscheck SECONDS [SEED]

Draws claims for so many seconds and compares what z3, cadical and the library make of them.
Exit status: 0 all agree, 1 something is at odds, 2 bad usage.";

/// How long a solver may take over one question.
const LIMIT: Duration = Duration::from_secs(5);

fn main() -> ExitCode {
    let words: Vec<u64> = (std::env::args().skip(1))
        .map_while(|word| word.parse().ok())
        .collect();
    let (seconds, seed) = match words[..] {
        [seconds] => (seconds, 1),
        [seconds, seed] => (seconds, seed),
        _ => {
            eprintln!("{HELP}");
            return ExitCode::from(2);
        }
    };
    match compare(Duration::from_secs(seconds), seed) {
        0 => ExitCode::SUCCESS,
        _ => ExitCode::FAILURE,
    }
}

/// Compares for so long; hands back the number of cases at odds.
fn compare(time: Duration, seed: u64) -> usize {
    let solver = Solver {
        command: solver::DEFAULT.to_string(),
        limit: Some(LIMIT),
    };
    let started = Instant::now();
    let mut counts = BTreeMap::new();
    let (mut longest, mut unchecked) = (0, 0);
    let (mut number, mut at_odds) = (0, 0);
    while started.elapsed() < time {
        let rng = &mut Rng::for_case(seed, number);
        let case = draw::draw(rng);
        match check(&case, &solver, rng) {
            Ok((came, verdict)) => {
                *counts.entry(came.kind()).or_insert(0) += 1;
                unchecked += u32::from(verdict == Verdict::Unknown);
                longest = longest.max(came.bytes());
            }
            Err(message) => {
                at_odds += 1;
                println!("seed {seed} case {number}: {message}\n  {:?}", case.claim);
            }
        }
        number += 1;
    }
    println!("seed {seed}: {number} claims, {counts:?}, longest report {longest} bytes");
    println!("not decided by z3 in time: {unchecked}, at odds: {at_odds}");
    at_odds
}
