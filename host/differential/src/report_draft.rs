//! Reports in the making: good ones on claims that hold, and forged ones on
//! claims that do not, among them those that hold as long as all leftovers are 0.

use crate::claim::Claim;
use crate::proof_draft::{Command, Refutation};
use crate::refute::{refute, Style};
use crate::rng::Rng;

/// The most variables and steps of a drawn proof, which keep the search short.
const MAX_VARIABLES: u32 = 150;
const MAX_STEPS: usize = 200;
/// The most clauses and steps where widths are not small.
const MAX_WIDE_CLAUSES: usize = 700;
const MAX_WIDE_STEPS: usize = 10;
/// How many reports are drawn in search of one with many steps.
const MAX_TRIES: usize = 8;
/// How many literals are dropped in search of a forged proof.
const MAX_DROPPED: usize = 30;

/// A claim, and its clauses with a proof; the lead is the claim's.
#[derive(Clone)]
pub struct Report {
    pub claim: Claim,
    pub refutation: Refutation,
}

impl Report {
    fn new(claim: Claim, clauses: Vec<Vec<u32>>, variables: u32, commands: Vec<Command>) -> Self {
        let lead = claim.lead();
        Report {
            claim,
            refutation: Refutation {
                clauses,
                variables,
                commands,
                lead,
            },
        }
    }

    /// Draws a good report, often one whose proof has several steps.
    pub fn draw(rng: &mut Rng) -> Self {
        if rng.chance(10) {
            return Report::draw_wide(rng);
        }
        let least = rng.pick(&[1, 1, 1, 1, 2, 5]);
        let mut report = Report::draw_until(rng, true);
        for _ in 0..MAX_TRIES {
            if report.refutation.steps().len() >= least {
                break;
            }
            report = Report::draw_until(rng, true);
        }
        report
    }

    /// Draws a report whose witness is good, on a claim that brute force
    /// refutes.
    pub fn draw_forged(rng: &mut Rng) -> Self {
        Report::draw_until(rng, false)
    }

    /// Draws a report that would be good if each leftover were 0, on a claim
    /// that brute force refutes by other leftovers.
    pub fn draw_cleared(rng: &mut Rng) -> Self {
        loop {
            if let Some(report) = Report::try_draw_cleared(rng) {
                return report;
            }
        }
    }

    fn try_draw_cleared(rng: &mut Rng) -> Option<Self> {
        let claim = Claim::draw_cleared(rng);
        let (clauses, variables) = claim.clauses();
        if claim.holds() || !claim.holds_cleared() || variables > MAX_VARIABLES {
            return None;
        }
        let style = Style::draw(rng);
        let cleared = claim.cleared_clauses();
        let commands = refute(rng, &cleared, variables, style, MAX_STEPS)?;
        Some(Report::new(claim, clauses, variables, commands))
    }

    /// Draws a report on a routine of any widths; there the proof alone tells
    /// that the claim holds.
    fn draw_wide(rng: &mut Rng) -> Self {
        loop {
            let claim = Claim::draw_wide(rng);
            let (clauses, variables) = claim.clauses();
            if clauses.len() > MAX_WIDE_CLAUSES {
                continue;
            }
            let style = Style::draw(rng);
            if let Some(commands) = refute(rng, &clauses, variables, style, MAX_WIDE_STEPS) {
                return Report::new(claim, clauses, variables, commands);
            }
        }
    }

    fn draw_until(rng: &mut Rng, holds: bool) -> Self {
        loop {
            if let Some(report) = Report::try_draw(rng, holds) {
                return report;
            }
        }
    }

    fn try_draw(rng: &mut Rng, holds: bool) -> Option<Self> {
        let claim = Claim::draw(rng);
        let (clauses, variables) = claim.clauses();
        if claim.holds() != holds || variables > MAX_VARIABLES {
            return None;
        }
        let style = Style::draw(rng);
        let commands = match holds {
            true => refute(rng, &clauses, variables, style, MAX_STEPS)?,
            false => forge(rng, &clauses, variables, style)?,
        };
        Some(Report::new(claim, clauses, variables, commands))
    }
}

/// A proof that would be good if some clauses said more than they do: literals
/// are dropped from them until nothing satisfies them.
fn forge(
    rng: &mut Rng,
    clauses: &[Vec<u32>],
    variables: u32,
    style: Style,
) -> Option<Vec<Command>> {
    let mut stronger = clauses.to_vec();
    (0..MAX_DROPPED).find_map(|_| {
        let number = rng.below(stronger.len());
        let clause = &mut stronger[number];
        if clause.len() > 1 {
            clause.remove(rng.below(clause.len()));
        }
        refute(rng, &stronger, variables, style, MAX_STEPS)
    })
}

#[cfg(test)]
mod tests {
    use super::*;
    use crate::leftovers::leaves_something;
    use crate::proof_draft::encode;
    use oracle::check_proof;

    /// The proof is good for the clauses with 0 for each leftover, the witness
    /// has such leftovers, and the claim is not so.
    #[test]
    fn cleared_reports_would_be_good() {
        for case in 0..300 {
            let report = Report::draw_cleared(&mut Rng::for_case(1, case));
            let (claim, refutation) = (&report.claim, &report.refutation);
            assert!(!leaves_something(&claim.routine, &claim.witness));
            assert!(claim.holds_cleared() && !claim.holds());
            let proof = encode(&refutation.commands);
            let (words, starts) = refutation.needed();
            let cited = |clauses: &[Vec<u32>]| {
                check_proof(&proof, 0, clauses, refutation.variables, words, starts)
            };
            assert!(cited(&claim.cleared_clauses()).is_ok());
            assert!(cited(&refutation.clauses).is_err());
        }
    }
}
