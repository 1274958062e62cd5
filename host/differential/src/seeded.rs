//! Going through seeded cases, or making one of them again.
//!
//! `REPLAY=<case>` makes one case again and prints it; `SEED` and `CASES`
//! stand in for the test's own numbers; `TRACE=1` prints the number of each
//! case before its calls, for a library that brings the whole process down.

use crate::counter::Counter;
use crate::rng::Rng;
use std::env;
use std::fmt::{Debug, Display};
use std::io::{self, Write};

/// Draws and compares so many cases and has each noted with its verdict;
/// panics where one differs. Hands back whether the cases were gone through
/// and not just one made again.
pub fn go_through<C: Display, V: Debug>(
    seed: u64,
    cases: u64,
    draw: impl Fn(&mut Rng) -> C,
    compare: impl Fn(&C) -> Result<V, String>,
    mut note: impl FnMut(&C, &V),
) -> bool {
    let seed = env_number("SEED").unwrap_or(seed);
    let compared = |number| {
        let case = draw(&mut Rng::for_case(seed, number));
        match compare(&case) {
            Ok(verdict) => (case, verdict),
            Err(report) => panic!("seed {seed}, case {number}, {report}"),
        }
    };
    if let Some(number) = env_number("REPLAY") {
        let (case, verdict) = compared(number);
        show(&format!("seed {seed}, case {number}\n{case}{verdict:?}\n"));
        return false;
    }
    for number in 0..env_number("CASES").unwrap_or(cases) {
        if env::var_os("TRACE").is_some() {
            show(&format!("case {number}\n"));
        }
        let (case, verdict) = compared(number);
        note(&case, &verdict);
    }
    true
}

/// Shows the counts and panics where something came up too seldom.
pub fn settle<E: Copy + Display + Ord>(counter: &Counter<E>) {
    show(&counter.to_string());
    let missed = counter.missed();
    assert!(missed.is_empty(), "too few cases:\n{}", missed.join("\n"));
}

/// Writes past the test runner's capture, so that it is always seen.
pub fn show(text: &str) {
    let mut out = io::stdout().lock();
    write!(out, "{text}").expect("standard output");
    out.flush().expect("standard output");
}

fn env_number(name: &str) -> Option<u64> {
    let text = env::var(name).ok()?;
    Some(
        text.parse()
            .unwrap_or_else(|_| panic!("{name} is not a number: {text}")),
    )
}
