//! The comparison of the library with the oracle on one case.

use crate::case::Case;
use crate::lent::Lent;
use crate::rng::Noise;
use oracle::{Arm, Counts, Outcome, Refusal, Run, Side};
use pellet::{ANSWER_LEN, ANSWER_TOO_SHORT};
use std::fmt::{self, Debug, Write};

/// What a call comes to, by the oracle.
#[derive(Clone, Debug, PartialEq, Eq)]
pub enum Verdict<T> {
    Done(T),
    Refused(Refusal),
    /// The answer buffer is too short, whatever else the call is given.
    AnswerTooShort,
}

impl<T> Verdict<T> {
    pub(crate) fn new(answer: &Lent<u64>, result: impl FnOnce() -> Result<T, Refusal>) -> Self {
        if answer.len() < ANSWER_LEN {
            return Verdict::AnswerTooShort;
        }
        match result() {
            Ok(done) => Verdict::Done(done),
            Err(refusal) => Verdict::Refused(refusal),
        }
    }

    /// What the C function returns.
    pub(crate) fn status(&self) -> u8 {
        match self {
            Verdict::Done(_) => 0,
            Verdict::Refused(refusal) => refusal.number,
            Verdict::AnswerTooShort => ANSWER_TOO_SHORT,
        }
    }
}

/// What both calls of a case come to.
#[derive(Debug)]
pub struct Verdicts {
    pub check: Verdict<Counts>,
    pub run: Verdict<Run>,
}

/// Makes both calls and compares them with the oracle; hands back what the
/// oracle says, or a description of where the library differs.
pub fn compare(case: &Case) -> Result<Verdicts, String> {
    Ok(Verdicts {
        check: compare_check(case)?,
        run: compare_run(case)?,
    })
}

fn compare_check(case: &Case) -> Result<Verdict<Counts>, String> {
    let verdict = Verdict::new(&case.check_answer, || oracle::check(case.routine.slice()));
    let mut expected = case.check_answer.clone();
    expected.fill(&check_answer(&verdict));

    let routine = case.routine.clone();
    let mut answer = case.check_answer.clone();
    let status = pellet::check(routine.slice(), answer.slice_mut());

    let mut differences = Differences::new(verdict.status(), status);
    differences.note("answer", &expected, &answer);
    differences.note("routine", &case.routine, &routine);
    differences.finish("pellet_check", case, &verdict)?;
    Ok(verdict)
}

fn compare_run(case: &Case) -> Result<Verdict<Run>, String> {
    let verdict = Verdict::new(&case.run_answer, || {
        let (values, trail) = (case.values.len(), case.trail.len());
        oracle::run(case.routine.slice(), case.inputs.slice(), values, trail)
    });
    let mut expected_answer = case.run_answer.clone();
    expected_answer.fill(&run_answer(&verdict));
    let (mut expected_values, mut expected_trail) = (case.values.clone(), case.trail.clone());
    if let Verdict::Done(run) = &verdict {
        expected_values.fill(&run.values);
        expected_trail.fill(&run.trail.iter().copied().map(Arm::byte).collect::<Vec<_>>());
    }

    let (routine, inputs) = (case.routine.clone(), case.inputs.clone());
    let (mut values, mut trail) = (case.values.clone(), case.trail.clone());
    let mut answer = case.run_answer.clone();
    let status = pellet::run(
        routine.slice(),
        inputs.slice(),
        values.slice_mut(),
        trail.slice_mut(),
        answer.slice_mut(),
    );

    let mut differences = Differences::new(verdict.status(), status);
    differences.note("answer", &expected_answer, &answer);
    differences.note("values", &expected_values, &values);
    differences.note("trail", &expected_trail, &trail);
    differences.note("routine", &case.routine, &routine);
    differences.note("inputs", &case.inputs, &inputs);
    differences.finish("pellet_run", case, &verdict)?;
    Ok(verdict)
}

/// The entries of the answer that a check fills, from the first on.
fn check_answer(verdict: &Verdict<Counts>) -> Vec<u64> {
    match verdict {
        Verdict::Done(counts) => [
            counts.variables,
            counts.parameters,
            counts.arrays,
            counts.ifs,
            counts.accesses,
            counts.reads,
            counts.first_command,
        ]
        .map(|count| count as u64)
        .to_vec(),
        Verdict::Refused(refusal) => vec![refusal.place as u64],
        Verdict::AnswerTooShort => Vec::new(),
    }
}

/// The entries of the answer that a run fills, from the first on.
fn run_answer(verdict: &Verdict<Run>) -> Vec<u64> {
    match verdict {
        Verdict::Done(run) => match run.outcome {
            Outcome::Ended => vec![0],
            Outcome::Stopped {
                access,
                side,
                index,
            } => {
                let side = match side {
                    Side::Below => 0,
                    Side::Above => 1,
                };
                let negative = u64::from(index < 0);
                vec![1, access as u64, side, negative, index.unsigned_abs()]
            }
        },
        Verdict::Refused(refusal) => vec![refusal.place as u64],
        Verdict::AnswerTooShort => Vec::new(),
    }
}

/// The differences found in one call.
pub(crate) struct Differences(Vec<String>);

impl Differences {
    pub fn new(expected: u8, got: u8) -> Self {
        let mut differences = Vec::new();
        if expected != got {
            differences.push(format!("returned: expected {expected}, got {got}"));
        }
        Differences(differences)
    }

    pub fn note<T: Noise>(&mut self, name: &str, expected: &Lent<T>, got: &Lent<T>) {
        let found = expected.differences(got);
        self.0
            .extend(found.iter().map(|found| format!("{name}: {found}")));
    }

    pub fn add(&mut self, difference: Option<String>) {
        self.0.extend(difference);
    }

    /// Nothing, or a report of the call, its case and all differences.
    pub fn finish(
        self,
        call: &str,
        case: &impl fmt::Display,
        verdict: &impl Debug,
    ) -> Result<(), String> {
        if self.0.is_empty() {
            return Ok(());
        }
        let found = self.0.join("\n  ");
        Err(format!(
            "{call}\n{case}by the oracle: {verdict:?}\n  {found}"
        ))
    }
}

impl fmt::Display for Case {
    fn fmt(&self, f: &mut fmt::Formatter<'_>) -> fmt::Result {
        let routine = self.routine.slice();
        writeln!(f, "routine ({} bytes): {}", routine.len(), hex(routine))?;
        writeln!(f, "inputs: {:?}", self.inputs.slice())?;
        writeln!(
            f,
            "lent: values {}, trail {}, answer {} for the check, {} for the run",
            self.values.len(),
            self.trail.len(),
            self.check_answer.len(),
            self.run_answer.len()
        )
    }
}

pub(crate) fn hex(bytes: &[u8]) -> String {
    let mut text = String::new();
    for byte in bytes {
        write!(text, "{byte:02X} ").expect("writing to a string");
    }
    text
}
