//! The drawn proofs come to everything that a proof can come to, by the oracle
//! alone.

use differential::proof_case::ProofCase;
use differential::proof_expected::expected;
use differential::proof_tally::ProofTally;
use differential::seeded::{go_through, settle};

const SEED: u64 = 0x50E1_1E7D_2026_0007;
const CASES: u64 = 20_000;

#[test]
fn drawn_proofs_come_to_everything() {
    let mut tally = ProofTally::default();
    let follow = |case: &ProofCase| {
        let expected = expected(case);
        Ok((expected.verdict, expected.progress))
    };
    let note = |case: &_, outcome: &_| tally.add(case, outcome);
    if go_through(SEED, CASES, ProofCase::draw, follow, note) {
        settle(tally.counter());
    }
}
