//! The comparison of a report's judging by the library with the oracle's.

use crate::claim::side_byte;
use crate::compare::{Differences, Verdict};
use crate::report_case::ReportCase;
use crate::truth::confirm;
use oracle::Finding;

/// What the oracle says of a case, once the claim of an accepted report was
/// held against every input list.
pub fn expected(case: &ReportCase) -> Result<Verdict<Finding>, String> {
    let (routine, report) = (case.routine.slice(), case.report.slice());
    let judge = || oracle::judge(routine, report, case.room());
    let verdict = Verdict::new(&case.answer, judge);
    if let Verdict::Done(finding) = &verdict {
        confirm(routine, report, finding)
            .map_err(|problem| format!("accepted by the oracle\n{case}{finding:?}\n{problem}"))?;
    }
    Ok(verdict)
}

/// Makes the call and compares the returned number and every entry of every
/// buffer, lent or not, with what the oracle says; hands that back, or a
/// description of where the library differs.
pub fn compare_report(case: &ReportCase) -> Result<Verdict<Finding>, String> {
    let verdict = expected(case)?;
    let (routine, report) = (case.routine.clone(), case.report.clone());
    let (mut words, mut starts) = (case.words.clone(), case.starts.clone());
    let mut marks = case.marks.clone();
    let (mut values, mut trail) = (case.values.clone(), case.trail.clone());
    let mut answer = case.answer.clone();
    let status = pellet::judge(
        routine.slice(),
        report.slice(),
        words.slice_mut(),
        starts.slice_mut(),
        marks.slice_mut(),
        values.slice_mut(),
        trail.slice_mut(),
        answer.slice_mut(),
    );

    let mut expected_answer = case.answer.clone();
    expected_answer.fill(&entries(&verdict));
    let mut differences = Differences::new(verdict.status(), status);
    differences.note("answer", &expected_answer, &answer);
    // The buffers are zeroed whatever the call comes to, a short answer too.
    differences.note("words", &case.words.zeroed(), &words);
    differences.note("starts", &case.starts.zeroed(), &starts);
    differences.note("marks", &case.marks.zeroed(), &marks);
    differences.note("values", &case.values.zeroed(), &values);
    differences.note("trail", &case.trail.zeroed(), &trail);
    differences.note("routine", &case.routine, &routine);
    differences.note("report", &case.report, &report);
    differences.finish("pellet_judge", case, &verdict)?;
    Ok(verdict)
}

/// The entries of the answer that judging fills, from the first on.
fn entries(verdict: &Verdict<Finding>) -> Vec<u64> {
    match verdict {
        Verdict::Done(finding) => vec![
            finding.access as u64,
            u64::from(side_byte(finding.side)),
            finding.array as u64,
            u64::from(finding.size),
            u64::from(finding.index < 0),
            finding.index.unsigned_abs(),
            finding.steps as u64,
            finding.hints as u64,
        ],
        Verdict::Refused(refusal) => vec![refusal.place as u64],
        Verdict::AnswerTooShort => Vec::new(),
    }
}
