//! What z3 says of a claim.

use crate::smt::questions;
use oracle::Routine;
use pelletperiod::Claim;
use std::io::Write;
use std::process::{Command, Stdio};

#[derive(Clone, Copy, Debug, PartialEq, Eq, PartialOrd, Ord)]
pub enum Verdict {
    Holds,
    NotSo,
    NoRun,
    /// No answer in the time given.
    Unknown,
}

/// Asks z3, giving it so many milliseconds for each of the two questions.
pub fn ask(claim: &Claim, routine: &Routine, milliseconds: u32) -> Result<Verdict, String> {
    let wrong = |e: std::io::Error| format!("z3: {e}");
    let mut child = Command::new("z3")
        .args(["-in", &format!("-t:{milliseconds}")])
        .stdin(Stdio::piped())
        .stdout(Stdio::piped())
        .spawn()
        .map_err(wrong)?;
    let mut input = child.stdin.take().expect("it was asked for");
    input
        .write_all(questions(claim, routine).as_bytes())
        .map_err(wrong)?;
    drop(input);
    let output = child.wait_with_output().map_err(wrong)?;
    let text = String::from_utf8_lossy(&output.stdout).into_owned();
    match text.lines().collect::<Vec<_>>()[..] {
        ["unsat", _] => Ok(Verdict::NoRun),
        ["sat", "unsat"] => Ok(Verdict::Holds),
        ["sat", "sat"] => Ok(Verdict::NotSo),
        ["sat" | "unknown" | "timeout", "sat" | "unsat" | "unknown" | "timeout"] => {
            Ok(Verdict::Unknown)
        }
        _ => Err(format!("z3 said {text}")),
    }
}
