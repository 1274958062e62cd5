//! Seeded random proofs, good and damaged, compared with the oracle entry by
//! entry. How to make a proof again is said in `differential::seeded`.

use differential::proof_case::ProofCase;
use differential::proof_compare::compare_proof;
use differential::proof_tally::ProofTally;
use differential::seeded::{go_through, settle};

const SEED: u64 = 0x50E1_1E7D_2026_0008;
const CASES: u64 = 60_000;

#[test]
fn seeded_proofs_agree() {
    let mut tally = ProofTally::default();
    let note = |case: &_, outcome: &_| tally.add(case, outcome);
    if go_through(SEED, CASES, ProofCase::draw, compare_proof, note) {
        settle(tally.counter());
    }
}
