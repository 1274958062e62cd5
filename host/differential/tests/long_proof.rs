//! A proof of 100,000 steps over a million variables, good and with one bad
//! step near its end, by the oracle.

use differential::long_proof::{long_proof, spoil_step};
use differential::proof_draft::{encode, Refutation};
use oracle::{check_proof, Refusal, Totals};

const VARIABLES: u32 = 1_000_000;
const STEPS: usize = 100_000;

fn checked(refutation: &Refutation) -> Result<Totals, Refusal> {
    let Refutation {
        clauses, variables, ..
    } = refutation;
    let (words, starts) = refutation.needed();
    let report = [refutation.lead.clone(), encode(&refutation.commands)].concat();
    let from = refutation.lead.len();
    check_proof(&report, from, clauses, *variables, words, starts)
}

/// The chain comes to every variable, and short ones are as good as the long
/// one.
#[test]
fn chains_of_any_length() {
    for variables in (20..3000).step_by(10) {
        let refutation = long_proof(variables);
        let mut met: Vec<u32> = refutation.clauses[1..variables as usize]
            .iter()
            .map(|clause| clause[2])
            .collect();
        met.sort_unstable();
        let all: Vec<u32> = (2..=variables).map(|variable| 2 * variable).collect();
        assert_eq!(met, all);
        let steps = variables as usize / 10;
        assert_eq!(checked(&refutation).map(|totals| totals.steps), Ok(steps));
    }
}

#[test]
fn long_proof_and_one_bad_step() {
    let mut refutation = long_proof(VARIABLES);
    // Twelve hints a step, eleven for the first, which has no step before it.
    let totals = Totals {
        steps: STEPS,
        hints: 12 * STEPS - 1,
    };
    assert_eq!(checked(&refutation), Ok(totals));
    let place = 2 + spoil_step(&mut refutation, STEPS - 3);
    let refused = Refusal { number: 20, place };
    assert_eq!(checked(&refutation), Err(refused));
}
