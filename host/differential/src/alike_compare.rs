//! The comparison of two reports' likeness by the library with the oracle's.

use crate::alike_case::AlikeCase;
use crate::compare::{Differences, Verdict};

/// What the oracle says of a case.
pub fn expected(case: &AlikeCase) -> Verdict<bool> {
    Verdict::new(&case.answer, || {
        oracle::alike(
            case.routine.slice(),
            case.first.slice(),
            case.second.slice(),
        )
    })
}

/// Makes the call and compares the returned number and every entry of the
/// answer with what the oracle says; hands that back, or a description of where
/// the library differs.
pub fn compare_alike(case: &AlikeCase) -> Result<Verdict<bool>, String> {
    let verdict = expected(case);
    let mut expected_answer = case.answer.clone();
    match verdict {
        Verdict::Done(alike) => expected_answer.fill(&[u64::from(alike)]),
        Verdict::Refused(refusal) => expected_answer.fill(&[refusal.place as u64]),
        Verdict::AnswerTooShort => {}
    }
    let (routine, first) = (case.routine.clone(), case.first.clone());
    let (second, mut answer) = (case.second.clone(), case.answer.clone());
    let status = pellet::alike(
        routine.slice(),
        first.slice(),
        second.slice(),
        answer.slice_mut(),
    );

    let mut differences = Differences::new(verdict.status(), status);
    differences.note("answer", &expected_answer, &answer);
    differences.note("routine", &case.routine, &routine);
    differences.note("first", &case.first, &first);
    differences.note("second", &case.second, &second);
    differences.finish("pellet_alike", case, &verdict)?;
    Ok(verdict)
}
