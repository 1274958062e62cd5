//! Seeded random proofs over very many words, where the library looks ahead at
//! the clauses of the next hints. That changes no answer.

use differential::proof_case::ProofCase;
use differential::proof_compare::compare_proof;
use differential::proof_expected::ProofVerdict;
use differential::seeded::go_through;

const SEED: u64 = 0x50E1_1E7D_2026_0011;
const CASES: u64 = 90;
/// From here on the library looks ahead.
const WORDS: usize = 8_388_608;

#[test]
fn proofs_over_very_many_words_agree() {
    let mut statuses = Vec::new();
    let draw = |rng: &mut _| ProofCase::draw_roomy(rng, WORDS);
    let note = |_: &_, (verdict, _): &(ProofVerdict, _)| {
        statuses.push(verdict.status());
    };
    if go_through(SEED, CASES, draw, compare_proof, note) {
        for status in [0, 17, 18, 19, 20, 21, 22, 23, 24] {
            assert!(statuses.contains(&status), "{status} does not come up");
        }
    }
}
