//! The comparison of the space that the library tells with what the oracle
//! counts and with the most that there may be, and of a translation with what
//! was told of it.

use crate::compare::{Differences, Verdict};
use crate::lent::Lent;
use crate::translation_case::TranslationCase;
use crate::translation_compare::{compare_translation, expected_entries, Agreed};
use oracle::refusal::{BUFFER, STARTS_BUFFER, WORDS_BUFFER};
use oracle::{extent_of, Translation, MAX_ENTRIES};
use pellet::ANSWER_TOO_SHORT;

/// What the library told of a case's space, which agrees with the oracle.
pub struct Told {
    pub verdict: Verdict<Translation>,
    pub status: u8,
    pub answer: Lent<u64>,
}

/// A case whose space was told and that was translated.
pub struct Both {
    pub told: Told,
    pub translated: Agreed,
}

/// Makes both calls, compares each with the oracle, and the second with what
/// the first told; hands both back, or a description of where the library
/// differs.
pub fn compare_as_told(case: &TranslationCase) -> Result<Both, String> {
    let told = compare_space(case)?;
    let translated = compare_translation(case)?;
    compare_with_told(case, &told, &translated)?;
    Ok(Both { told, translated })
}

/// Makes the call and compares the returned number and every entry of the
/// answer with what the oracle says, and what is told with the most for such a
/// routine; hands back what was told, or a description of where the library
/// differs.
pub fn compare_space(case: &TranslationCase) -> Result<Told, String> {
    let verdict = expected(case);
    let mut expected_answer = case.space_answer.clone();
    expected_answer.fill(&expected_entries(&verdict));

    let (routine, decisions) = (case.routine.clone(), case.decisions.clone());
    let mut answer = case.space_answer.clone();
    let status = pellet::space(
        routine.slice(),
        case.access,
        case.side,
        decisions.slice(),
        answer.slice_mut(),
    );

    let mut differences = Differences::new(verdict.status(), status);
    differences.note("answer", &expected_answer, &answer);
    differences.note("routine", &case.routine, &routine);
    differences.note("decisions", &case.decisions, &decisions);
    if status == 0 {
        differences.add(beyond_the_most(case, &answer));
    }
    differences.finish("pellet_space", case, &verdict)?;
    Ok(Told {
        verdict,
        status,
        answer,
    })
}

/// The buffers that are lent do not matter, as they are not for this call.
fn expected(case: &TranslationCase) -> Verdict<Translation> {
    Verdict::new(&case.space_answer, || {
        let decisions = case.decisions.slice();
        oracle::measure(case.routine.slice(), case.access, case.side, decisions)
    })
}

/// What is told where it is more than a routine of such an extent takes.
fn beyond_the_most(case: &TranslationCase, answer: &Lent<u64>) -> Option<String> {
    let routine = oracle::parse(case.routine.slice()).ok()?;
    let most = extent_of(&routine).most();
    let most = [most.clauses, most.words, most.variables].map(|count| count as u64);
    let told = answer.slice().get(..most.len())?;
    let is_within = told.iter().zip(&most).all(|(told, most)| told <= most);
    (!is_within).then(|| format!("told {told:?}, at most {most:?}"))
}

/// Compares what the translation answered with what follows from what was told,
/// whatever the oracle says. With an answer too short nothing follows.
fn compare_with_told(case: &TranslationCase, told: &Told, got: &Agreed) -> Result<(), String> {
    if [told.status, got.status].contains(&ANSWER_TOO_SHORT) {
        return Ok(());
    }
    let (status, entries) = following(told, case.words.len(), case.starts.len());
    let mut expected_answer = case.answer.clone();
    expected_answer.fill(&entries);
    let mut differences = Differences::new(status, got.status);
    differences.note("answer", &expected_answer, &got.answer);
    differences.finish("pellet_translate after pellet_space", case, &told.verdict)
}

/// What a translation returns in buffers of these lengths, and the entries of
/// its answer: the refusal that was told, or 16 exactly where words or starts
/// are fewer than told or more are told than are ever used, or what was told.
fn following(told: &Told, words_len: usize, starts_len: usize) -> (u8, Vec<u64>) {
    let entries = told.answer.slice();
    if told.status != 0 {
        return (told.status, entries[..1].to_vec());
    }
    let (clauses, words) = (entries[0], entries[1]);
    let too_small = |len: usize, told: u64| told > len as u64 || told > MAX_ENTRIES as u64;
    if too_small(words_len, words) {
        (BUFFER, vec![WORDS_BUFFER as u64])
    } else if too_small(starts_len, clauses) {
        (BUFFER, vec![STARTS_BUFFER as u64])
    } else {
        (0, entries[..3].to_vec())
    }
}
