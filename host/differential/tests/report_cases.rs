//! The drawn reports come to everything that a report can come to, and what is
//! accepted is so on every input list: by the oracle alone.

use differential::alike_case::AlikeCase;
use differential::alike_compare;
use differential::alike_tally::AlikeTally;
use differential::report_case::ReportCase;
use differential::report_compare::expected;
use differential::report_tally::ReportTally;
use differential::seeded::{go_through, settle};

const SEED: u64 = 0x50E1_1E7D_2026_000B;
const CASES: u64 = 10_000;
const PAIR_SEED: u64 = 0x50E1_1E7D_2026_000C;
const PAIRS: u64 = 4000;

#[test]
fn drawn_reports_come_to_everything() {
    let mut tally = ReportTally::default();
    let note = |case: &_, verdict: &_| tally.add(case, verdict);
    if go_through(SEED, CASES, ReportCase::draw, expected, note) {
        settle(tally.counter());
    }
}

#[test]
fn drawn_pairs_come_to_everything() {
    let mut tally = AlikeTally::default();
    let expected = |case: &_| Ok(alike_compare::expected(case));
    let note = |case: &_, verdict: &_| tally.add(case, verdict);
    if go_through(PAIR_SEED, PAIRS, AlikeCase::draw, expected, note) {
        settle(tally.counter());
    }
}
