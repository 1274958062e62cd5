//! A report on a claim that is not so, as good as one can be made.

use pelletperiod::elaborate::elaborate;
use pelletperiod::inputs::Input;
use pelletperiod::progress::Count;
use pelletperiod::proof::{encode, trim, Step};
use pelletperiod::{Claim, Translation};

/// A proof that would be good if the inputs could only be those of the witness:
/// the hints that cite this cite another clause in its place.
pub fn forge(
    claim: &Claim,
    translation: &Translation,
    inputs: &[Input],
    witness: &[u32],
    instead: impl FnMut(u32) -> u32,
) -> Result<Vec<u8>, String> {
    let fixed = fix(inputs, witness);
    let all = translation.iter().chain(fixed.iter().map(Vec::as_slice));
    let steps = elaborate(all, translation.variables, &[], &Count::default())?;
    let given = translation.clauses + fixed.len();
    let steps = trim(given, steps);
    let fixed = fixed.len() as u32;
    let cited = cite(steps, translation.clauses as u32, fixed, instead);
    Ok(claim.report(witness, &encode(&cited)))
}

/// A clause for each bit of the witness.
fn fix(inputs: &[Input], witness: &[u32]) -> Vec<Vec<u32>> {
    let bits = inputs.iter().zip(witness).flat_map(|(input, word)| {
        let variables = input.variables.iter().enumerate();
        variables.map(move |(k, variable)| vec![2 * variable + (1 - (word >> k & 1))])
    });
    bits.collect()
}

/// Numbers the hints as if the clauses of the bits were not there.
fn cite(
    mut steps: Vec<Step>,
    clauses: u32,
    fixed: u32,
    mut instead: impl FnMut(u32) -> u32,
) -> Vec<Step> {
    for hint in steps.iter_mut().flat_map(|step| step.hints.iter_mut()) {
        if *hint >= clauses + fixed {
            *hint -= fixed;
        } else if *hint >= clauses {
            *hint = instead(clauses);
        }
    }
    steps
}
