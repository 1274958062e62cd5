//! The comparison of a translation by the library with the oracle's, and the
//! reading of clauses from the library's buffers.

use crate::compare::{Differences, Verdict};
use crate::lent::Lent;
use crate::translation_case::TranslationCase;
use oracle::{Clauses, Literal, Sink, Translation};

/// A translation by the library that agrees with the oracle's.
pub struct Agreed {
    pub verdict: Verdict<Translation>,
    pub status: u8,
    pub words: Lent<u32>,
    pub starts: Lent<u32>,
    pub answer: Lent<u64>,
}

/// Makes the call and compares it with the oracle clause by clause, and all
/// entries that must be unchanged one by one; hands back what the oracle says
/// and the buffers, or a description of where the library differs.
pub fn compare_translation(case: &TranslationCase) -> Result<Agreed, String> {
    let verdict = expected(case);
    let mut expected_answer = case.answer.clone();
    expected_answer.fill(&expected_entries(&verdict));

    let (routine, decisions) = (case.routine.clone(), case.decisions.clone());
    let (mut words, mut starts) = (case.words.clone(), case.starts.clone());
    let mut answer = case.answer.clone();
    let status = pellet::translate(
        routine.slice(),
        case.access,
        case.side,
        decisions.slice(),
        words.slice_mut(),
        starts.slice_mut(),
        answer.slice_mut(),
    );

    let mut differences = Differences::new(verdict.status(), status);
    differences.note("answer", &expected_answer, &answer);
    differences.note("routine", &case.routine, &routine);
    differences.note("decisions", &case.decisions, &decisions);
    let (mut unchanged_words, mut unchanged_starts) = (case.words.clone(), case.starts.clone());
    if let (Verdict::Done(translation), 0) = (&verdict, status) {
        differences.add(follow(case, &words, &starts));
        unchanged_words.fill(&words.slice()[..translation.words]);
        unchanged_starts.fill(&starts.slice()[..translation.clauses]);
    }
    differences.note("words", &unchanged_words, &words);
    differences.note("starts", &unchanged_starts, &starts);
    differences.finish("pellet_translate", case, &verdict)?;
    Ok(Agreed {
        verdict,
        status,
        words,
        starts,
        answer,
    })
}

fn expected(case: &TranslationCase) -> Verdict<Translation> {
    Verdict::new(&case.answer, || {
        let decisions = case.decisions.slice();
        let translation = oracle::measure(case.routine.slice(), case.access, case.side, decisions)?;
        translation.fit(case.words.len(), case.starts.len())?;
        Ok(translation)
    })
}

/// The entries of the answer that a translation fills, from the first on; those
/// that tell its space are the same.
pub(crate) fn expected_entries(verdict: &Verdict<Translation>) -> Vec<u64> {
    match verdict {
        Verdict::Done(translation) => [
            translation.clauses,
            translation.words,
            translation.variables,
        ]
        .map(|count| count as u64)
        .to_vec(),
        Verdict::Refused(refusal) => vec![refusal.place as u64],
        Verdict::AnswerTooShort => Vec::new(),
    }
}

/// The first clause in which the buffers differ from the oracle's translation.
fn follow(case: &TranslationCase, words: &Lent<u32>, starts: &Lent<u32>) -> Option<String> {
    let mut follower = Follower {
        words: words.slice(),
        starts: starts.slice(),
        clause: 0,
        at: 0,
        difference: None,
    };
    let decisions = case.decisions.slice();
    oracle::translate(
        case.routine.slice(),
        case.access,
        case.side,
        decisions,
        &mut follower,
    )
    .expect("a translation that the oracle accepts");
    follower.difference
}

/// Takes the oracle's clauses one by one and looks at the buffers where each
/// must stand.
struct Follower<'a> {
    words: &'a [u32],
    starts: &'a [u32],
    clause: usize,
    at: usize,
    difference: Option<String>,
}

impl Sink for Follower<'_> {
    fn clause(&mut self, literals: &[Literal]) {
        let (number, at) = (self.clause, self.at);
        self.clause += 1;
        self.at += 1 + literals.len();
        if self.difference.is_some() {
            return;
        }
        let got = &self.words[at..self.at];
        let is_there = got[0] as usize == literals.len()
            && got[1..]
                .iter()
                .zip(literals)
                .all(|(&got, literal)| got == literal.0);
        if !is_there {
            let expected: Vec<_> = literals.iter().map(|literal| literal.0).collect();
            self.difference = Some(format!(
                "clause {number}, words from {at}: expected {expected:?} after its count, got {got:?}"
            ));
        } else if self.starts[number] as usize != at {
            let start = self.starts[number];
            self.difference = Some(format!(
                "start of clause {number}: expected {at}, got {start}"
            ));
        }
    }
}

/// Reads so many clauses from buffers by their starts and counts alone.
pub fn read_clauses(words: &[u32], starts: &[u32], count: usize) -> Clauses {
    let mut clauses = Clauses::default();
    for &start in &starts[..count] {
        let first = start as usize + 1;
        let literals = words[first..first + words[start as usize] as usize].iter();
        clauses.clause(&literals.map(|&number| Literal(number)).collect::<Vec<_>>());
    }
    clauses
}
