//! The commands that make reports.

use crate::done::Done;
use crate::help::help;
use crate::words::{claim_of, parse_seconds, parse_witness, read, Words};
use pelletperiod::inputs::{by_kind, in_a_row, list};
use pelletperiod::propose::{judge_report, report, translate};
use pelletperiod::{model, propose, solver, Claim, Proposal, Solver};

/// Where a report goes that nothing else is said about.
const REPORT: &str = "report.bin";

pub fn propose_report(words: &[&str]) -> Result<Done, String> {
    let words = Words::split(words, &["--out", "--solver", "--seconds"])?;
    if words.plain.len() != 4 {
        return Err(help("propose").to_string());
    }
    let solver = Solver {
        command: words.option("--solver").unwrap_or(solver::DEFAULT).into(),
        limit: words.option("--seconds").map(parse_seconds).transpose()?,
    };
    let claim = claim_of(&words.plain)?;
    match propose(&claim, &solver)? {
        Proposal::Refused(refused) => Ok(Done::new(Err(refused))),
        Proposal::NoRun => Ok(Done::text("no run goes there", true)),
        Proposal::NotSo(inputs) => Ok(not_so(&claim, &inputs)),
        Proposal::Good { report, line } => {
            keep(&words, &report)?;
            Ok(Done::text(&line, false))
        }
    }
}

/// The words as `run` takes them, and then what each of them is.
fn not_so(claim: &Claim, list: &[u32]) -> Done {
    let kinds = by_kind(&claim.routine, list).expect("a routine that has clauses");
    let words = in_a_row(list);
    Done::text(&format!("not so: inputs {words}\n{kinds}"), true)
}

pub fn report_of_proof(words: &[&str]) -> Result<Done, String> {
    let words = Words::split(words, &["--witness", "--model", "--out"])?;
    if words.plain.len() != 5 {
        return Err(help("from-lrat").to_string());
    }
    let claim = claim_of(&words.plain)?;
    let (translation, inputs) = match translate(&claim) {
        Ok(translated) => translated,
        Err(refused) => return Ok(Done::new(Err(refused))),
    };
    let witness = match (words.option("--witness"), words.option("--model")) {
        (Some(word), None) => parse_witness(word)?,
        (None, Some(file)) => {
            let text = String::from_utf8_lossy(&read(file)?).into_owned();
            let model = model::parse(&text, translation.variables);
            list(&inputs, &model.map_err(|e| format!("{file}: {e}"))?)
        }
        _ => return Err("give either --witness or --model".to_string()),
    };
    if witness.len() != inputs.len() {
        let (given, wanted) = (witness.len(), inputs.len());
        return Err(format!(
            "the witness has {given} words, the routine takes {wanted}: \
             one for each variable, then one for each read"
        ));
    }
    let file = words.plain[4];
    let report =
        report(&claim, &translation, &witness, &read(file)?).map_err(|e| format!("{file}: {e}"))?;
    let verdict = judge_report(&claim, &report);
    if verdict.is_ok() {
        keep(&words, &report)?;
    }
    Ok(Done::new(verdict))
}

/// Puts a report that was accepted into its file.
fn keep(words: &Words, report: &[u8]) -> Result<(), String> {
    let file = words.option("--out").unwrap_or(REPORT);
    std::fs::write(file, report).map_err(|e| format!("{file}: {e}"))
}
