//! The comparison of a proof's check by the library with the oracle's.

use crate::compare::Differences;
use crate::proof_case::ProofCase;
use crate::proof_expected::{expected, Progress, ProofVerdict};

/// Makes the call and compares the returned number and every entry of every
/// buffer, lent or not, with what the oracle says; hands that back, or a
/// description of where the library differs.
pub fn compare_proof(case: &ProofCase) -> Result<(ProofVerdict, Progress), String> {
    let expected = expected(case);
    let (report, words) = (case.report.clone(), case.words.clone());
    let (mut starts, mut marks) = (case.starts.clone(), case.marks.clone());
    let mut answer = case.answer.clone();
    let status = pellet::prove(
        report.slice(),
        case.from,
        case.clauses,
        case.variables,
        words.slice(),
        starts.slice_mut(),
        marks.slice_mut(),
        answer.slice_mut(),
    );

    let mut differences = Differences::new(expected.verdict.status(), status);
    differences.note("answer", &expected.answer, &answer);
    differences.note("starts", &expected.starts, &starts);
    differences.note("marks", &expected.marks, &marks);
    differences.note("report", &case.report, &report);
    differences.note("words", &case.words, &words);
    differences.finish("pellet_prove", case, &expected.verdict)?;
    Ok((expected.verdict, expected.progress))
}
