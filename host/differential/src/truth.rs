//! What an accepted report says, held against the run on every input list.

use crate::claim::{refutes, side_byte};
use oracle::exhaustive::{input_bits, try_every_input, Tried, MAX_INPUT_BITS};
use oracle::{lead_len, Finding, Outcome, Routine};

/// The parts of a lead.
pub struct LeadParts<'a> {
    pub access: u8,
    pub side: u8,
    pub decisions: &'a [u8],
    pub witness: Vec<u32>,
}

/// The parts of a report's lead, if it is whole.
pub fn lead_parts<'a>(routine: &Routine, report: &'a [u8]) -> Option<LeadParts<'a>> {
    let lead = report.get(..lead_len(routine))?;
    let (decisions, witness) = lead[2..].split_at(routine.ifs);
    let witness = witness.chunks_exact(4);
    Some(LeadParts {
        access: lead[0],
        side: lead[1],
        decisions,
        witness: witness
            .map(|word| u32::from_le_bytes(word.try_into().expect("four bytes")))
            .collect(),
    })
}

/// Checks what a report was accepted for: the witness goes the way, comes to
/// the access and stops there as told, and every run that goes the way and
/// comes to the access stops there outside on the side. Hands back whether
/// there were few enough lists to go through.
pub fn confirm(routine: &[u8], report: &[u8], finding: &Finding) -> Result<bool, String> {
    let parsed = oracle::parse(routine).map_err(|refusal| format!("routine: {refusal:?}"))?;
    let lead = lead_parts(&parsed, report).ok_or("the lead is cut short")?;
    let run = oracle::run(routine, &lead.witness, 32, 32).map_err(|r| format!("witness: {r:?}"))?;
    let told = Outcome::Stopped {
        access: finding.access,
        side: finding.side,
        index: finding.index,
    };
    let named = (finding.access as u8, side_byte(finding.side));
    if run.outcome != told || named != (lead.access, lead.side) {
        return Err(format!("the witness's run: {:?}", run.outcome));
    }
    if input_bits(&parsed) > MAX_INPUT_BITS {
        return Ok(false);
    }
    let tried = try_every_input(routine, (lead.access, lead.side, lead.decisions))?;
    let is_witness = |tried: &&Tried| tried.inputs == lead.witness && tried.is_on_side;
    if tried.iter().filter(is_witness).count() != 1 {
        return Err("the witness does not go the way".to_string());
    }
    match tried.iter().find(|tried| refutes(tried)) {
        Some(tried) => Err(format!("the claim is false for {:?}", tried.inputs)),
        None => Ok(true),
    }
}
