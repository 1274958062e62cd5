//! From a claim to a report, with a solver.

use crate::elaborate::elaborate;
use crate::follow::follow;
use crate::inputs::{inputs, list, Input};
use crate::judge::{judge, judge_in};
use crate::progress::{during, Count};
use crate::proof::{encode, trim, Step};
use crate::refused::Refused;
use crate::solver::{Answer, Solver};
use crate::solver_proof::{parse, SolverProof};
use crate::{Claim, Counts, Room, Translation};

/// The refusals of a witness: it goes another way, it does not come to the
/// access, its index there is not on the side.
const OTHER_WAY: u8 = 13;
const NO_ARRIVAL: u8 = 14;
const OTHER_SIDE: u8 = 15;

/// What became of a claim.
#[derive(Clone, Debug, PartialEq, Eq)]
pub enum Proposal {
    /// A report that the library accepts, and the judge's line.
    Good {
        report: Vec<u8>,
        line: String,
    },
    /// An input list that goes there and has its index elsewhere.
    NotSo(Vec<u32>),
    NoRun,
    /// The claim itself is turned down.
    Refused(Refused),
}

/// Whether anything is wrong between solver, translation and judge; none of
/// these is the caller's to mend.
fn at_odds(what: &str) -> String {
    format!("the solver and the library are at odds: {what}")
}

/// Asks the solver for a run that comes to the access, then whether all of
/// them are as claimed; what it says is put to the library before it is told.
pub fn propose(claim: &Claim, solver: &Solver) -> Result<Proposal, String> {
    let (translation, inputs) = match translate(claim) {
        Ok(translated) => translated,
        Err(refused) => return Ok(Proposal::Refused(refused)),
    };
    let all = translation.clauses;
    let witness = match solver.solve(&translation, all - 1, "looking for a run")? {
        Answer::Unsatisfiable(_) => return Ok(Proposal::NoRun),
        Answer::Model(model) => list(&inputs, &model),
    };
    let is_witness = is_on_side(claim, &witness)?;
    let witness = tidied(claim, witness, is_witness);
    if !is_witness {
        return Ok(Proposal::NotSo(witness));
    }
    match solver.solve(&translation, all, "looking for a proof")? {
        Answer::Model(model) => {
            let other = list(&inputs, &model);
            match is_on_side(claim, &other)? {
                false => Ok(Proposal::NotSo(tidied(claim, other, false))),
                true => Err(at_odds(&format!("{other:?} is on the side after all"))),
            }
        }
        Answer::Unsatisfiable(proof) => {
            let report = report(claim, &translation, &witness, &proof)?;
            match judge_report(claim, &report) {
                Ok(line) => Ok(Proposal::Good { report, line }),
                Err(refused) => Err(at_odds(&refused.to_string())),
            }
        }
    }
}

pub fn translate(claim: &Claim) -> Result<(Translation, Vec<Input>), Refused> {
    let translation = claim.translate()?;
    let inputs = inputs(claim, &translation)?;
    Ok((translation, inputs))
}

pub fn judge_report(claim: &Claim, report: &[u8]) -> Result<String, Refused> {
    during("judging", |_| judge(&claim.routine, report))
}

/// Whether the run of a list that is to come to the access has its index there
/// on the side.
fn is_on_side(claim: &Claim, inputs: &[u32]) -> Result<bool, String> {
    let does_not = |_| at_odds(&format!("{inputs:?} does not go there"));
    run_to_access(claim, inputs).map_err(does_not)
}

/// Whether the run of a list has its index on the side where it comes to the
/// access. The judge says so of a report without a proof, and needs no room for
/// it: it runs the witness first.
fn run_to_access(claim: &Claim, inputs: &[u32]) -> Result<bool, Refused> {
    let report = claim.report(inputs, &[]);
    match judge_in(&Room::default(), &claim.routine, &report) {
        Err(refused) if refused.number == OTHER_SIDE => Ok(false),
        Err(refused) if matches!(refused.number, 10 | OTHER_WAY | NO_ARRIVAL) => Err(refused),
        _ => Ok(true),
    }
}

/// The list with 0 for every leftover without which its run comes there as well,
/// on the side as before or not: so those are seen that count.
fn tidied(claim: &Claim, mut list: Vec<u32>, is_on_side: bool) -> Vec<u32> {
    let counts = Counts::of(&claim.routine).expect("a routine that has clauses");
    for k in counts.parameters..counts.variables {
        let leftover = std::mem::take(&mut list[k]);
        if run_to_access(claim, &list) != Ok(is_on_side) {
            list[k] = leftover;
        }
    }
    list
}

/// A report with the steps of a solver's proof that are needed.
pub fn report(
    claim: &Claim,
    translation: &Translation,
    witness: &[u32],
    proof: &[u8],
) -> Result<Vec<u8>, String> {
    let parsed = during("reading the proof", |_| parse(proof, translation.variables))?;
    let steps = during("finding hints", |count| steps(translation, &parsed, count))?;
    let needed = trim(translation.clauses, steps);
    let report = claim.report(witness, &encode(&needed));
    match report.len() <= pellet::MAX_ENTRIES {
        true => Ok(report),
        false => Err(format!(
            "the report would have {} bytes, more than the {} that are judged: \
             claim less at once, by deciding more ifs",
            report.len(),
            pellet::MAX_ENTRIES
        )),
    }
}

fn steps(
    translation: &Translation,
    proof: &SolverProof,
    count: &Count,
) -> Result<Vec<Step>, String> {
    let (given, variables) = (translation.iter(), translation.variables);
    match proof {
        SolverProof::Drat(lines) => elaborate(given, variables, lines, count),
        SolverProof::Lrat(lines) => follow(given, variables, lines, count),
    }
}
