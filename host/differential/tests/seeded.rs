//! Seeded random cases, compared with the oracle entry by entry. How to make a
//! case again is said in `differential::seeded`.

use differential::case::Case;
use differential::compare::compare;
use differential::seeded::{go_through, settle};
use differential::tally::Tally;

const SEED: u64 = 0x50E1_1E7D_2026_0001;
const CASES: u64 = 300_000;

#[test]
fn seeded_cases_agree() {
    let mut tally = Tally::default();
    let note = |case: &_, verdicts: &_| tally.add(case, verdicts);
    if go_through(SEED, CASES, Case::draw, compare, note) {
        settle(tally.counter());
    }
}
