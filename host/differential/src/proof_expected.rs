//! What a call that checks a proof must come to, by the oracle: the number it
//! returns and every entry of the lent buffers.

use crate::lent::Lent;
use crate::proof_case::ProofCase;
use oracle::{follow_proof, Followed, Refusal, Totals, MAX_ENTRIES};
use pellet::{ANSWER_LEN, ANSWER_TOO_SHORT, NOT_STANDING};

#[derive(Clone, Copy, Debug, PartialEq, Eq)]
pub enum ProofVerdict {
    Done(Totals),
    Refused(Refusal),
    /// The buffers do not hold such clauses; nothing is changed.
    NotStanding,
    /// Nothing is looked at, because the answer buffer is too short.
    AnswerTooShort,
}

impl ProofVerdict {
    /// What the C function returns.
    pub fn status(&self) -> u8 {
        match self {
            ProofVerdict::Done(_) => 0,
            ProofVerdict::Refused(refusal) => refusal.number,
            ProofVerdict::NotStanding => NOT_STANDING,
            ProofVerdict::AnswerTooShort => ANSWER_TOO_SHORT,
        }
    }

    /// The entries of the answer that are filled, from the first on.
    fn entries(&self) -> Vec<u64> {
        match self {
            ProofVerdict::Done(totals) => vec![totals.steps as u64, totals.hints as u64],
            ProofVerdict::Refused(refusal) => vec![refusal.place as u64],
            ProofVerdict::NotStanding | ProofVerdict::AnswerTooShort => Vec::new(),
        }
    }
}

/// How far a proof was followed.
#[derive(Clone, Copy, Debug, Default, PartialEq, Eq)]
pub struct Progress {
    pub closed: usize,
    /// The literals of the open step.
    pub open: usize,
    /// The variables decided in the open step.
    pub made_true: usize,
    pub made_false: usize,
    /// The hints of steps' clauses.
    pub cited: usize,
}

impl Progress {
    fn of(followed: &Followed) -> Self {
        let count = |wanted: bool| {
            let values = followed.decided.values();
            values.filter(|&&value| value == wanted).count()
        };
        Progress {
            closed: followed.closed.len(),
            open: followed.open.len(),
            made_true: count(true),
            made_false: count(false),
            cited: followed.cited,
        }
    }
}

/// The buffers after the call; what is only read is not among them.
pub struct Expected {
    pub verdict: ProofVerdict,
    pub progress: Progress,
    pub starts: Lent<u32>,
    pub marks: Lent<u8>,
    pub answer: Lent<u64>,
}

pub fn expected(case: &ProofCase) -> Expected {
    let mut expected = Expected {
        verdict: ProofVerdict::AnswerTooShort,
        progress: Progress::default(),
        starts: case.starts.clone(),
        marks: case.marks.clone(),
        answer: case.answer.clone(),
    };
    if case.answer.len() >= ANSWER_LEN {
        match standing(case) {
            None => expected.verdict = ProofVerdict::NotStanding,
            Some(clauses) => expected.follow(case, &clauses),
        }
    }
    expected.answer.fill(&expected.verdict.entries());
    expected
}

impl Expected {
    fn follow(&mut self, case: &ProofCase, clauses: &[Vec<u32>]) {
        let (words, starts) = (case.words.len(), case.starts.len());
        let report = case.report.slice();
        let followed = follow_proof(report, case.from, clauses, case.variables, words, starts);
        self.starts = case.starts.zeroed();
        self.marks = case.marks.zeroed();
        self.progress = Progress::of(&followed);
        self.verdict = match followed.verdict {
            Ok(totals) => ProofVerdict::Done(totals),
            Err(refusal) => ProofVerdict::Refused(refusal),
        };
    }
}

/// The clauses that the buffers hold; none where they do not hold so many, one
/// behind the other over these variables, or where the report or the marks
/// cannot be used with them.
fn standing(case: &ProofCase) -> Option<Vec<Vec<u32>>> {
    let report = case.report.len();
    let marks = case.marks.len().min(MAX_ENTRIES);
    if case.from > report || report > MAX_ENTRIES || case.variables as usize >= marks {
        return None;
    }
    let words = used(case.words.slice());
    let starts = used(case.starts.slice()).get(..case.clauses as usize)?;
    let is_known = |literal: &u32| (1..=case.variables).contains(&(literal / 2));
    let mut clauses = Vec::new();
    let mut at = 0;
    for &start in starts {
        let count = *words.get(at)? as usize;
        let literals = words.get(at + 1..at + 1 + count)?;
        if start as usize != at || !literals.iter().all(is_known) {
            return None;
        }
        clauses.push(literals.to_vec());
        at += 1 + count;
    }
    Some(clauses)
}

fn used(entries: &[u32]) -> &[u32] {
    &entries[..entries.len().min(MAX_ENTRIES)]
}
