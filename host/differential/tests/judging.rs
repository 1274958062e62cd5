//! Reports judged by the library and by the oracle, compared entry by entry:
//! seeded random ones, good, damaged and forged, whose claims are held against
//! every input list where they are accepted, and pairs of reports. How to make
//! a report again is said in `differential::seeded`.

use differential::alike_case::AlikeCase;
use differential::alike_compare::compare_alike;
use differential::alike_tally::AlikeTally;
use differential::report_case::ReportCase;
use differential::report_compare::compare_report;
use differential::report_tally::ReportTally;
use differential::seeded::{go_through, settle};

const SEED: u64 = 0x50E1_1E7D_2026_000D;
const CASES: u64 = 12_000;
const PAIR_SEED: u64 = 0x50E1_1E7D_2026_000E;
const PAIRS: u64 = 4000;

#[test]
fn seeded_reports_agree() {
    let mut tally = ReportTally::default();
    let note = |case: &_, verdict: &_| tally.add(case, verdict);
    if go_through(SEED, CASES, ReportCase::draw, compare_report, note) {
        settle(tally.counter());
    }
}

#[test]
fn seeded_pairs_agree() {
    let mut tally = AlikeTally::default();
    let note = |case: &_, verdict: &_| tally.add(case, verdict);
    if go_through(PAIR_SEED, PAIRS, AlikeCase::draw, compare_alike, note) {
        settle(tally.counter());
    }
}
