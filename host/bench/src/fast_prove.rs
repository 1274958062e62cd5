//! The check of a proof over clauses that stand in the buffers.

use crate::fast_proof::{self, Given};
use crate::fast_refusal::Refusal;
use crate::lent::Buffers;
use pellet::{ANSWER_LEN, ANSWER_TOO_SHORT, MAX_ENTRIES, NOT_STANDING};

pub fn prove(
    report: &[u8],
    from: usize,
    clauses: u32,
    variables: u32,
    lent: &mut Buffers,
    answer: &mut [u64],
) -> u8 {
    if answer.len() < ANSWER_LEN {
        return ANSWER_TOO_SHORT;
    }
    let words_len = lent.words.len().min(MAX_ENTRIES);
    let starts_len = lent.starts.len().min(MAX_ENTRIES);
    let marks_len = lent.marks.len().min(MAX_ENTRIES);
    let (words, starts) = (&lent.words[..words_len], &mut lent.starts[..starts_len]);
    let marks = &mut lent.marks[..marks_len];
    let (clauses, variables) = (clauses as usize, variables as usize);
    if report.len() > MAX_ENTRIES || report.len() < from || marks_len <= variables {
        return NOT_STANDING;
    }
    let used = match stand(words, starts, clauses, variables) {
        Some(used) => used,
        None => return NOT_STANDING,
    };
    let given = Given {
        clauses,
        words: used,
    };
    marks[..=variables].fill(0);
    let checked = fast_proof::check(report, from, given, words, starts, &mut marks[..=variables]);
    starts.fill(0);
    marks.fill(0);
    match checked {
        Ok((steps, hints)) => {
            answer[0] = steps;
            answer[1] = hints;
            0
        }
        Err(refusal) => Refusal::give(refusal, answer),
    }
}

/// Where so many clauses end that stand one after another from the beginning.
fn stand(words: &[u32], starts: &[u32], clauses: usize, variables: usize) -> Option<usize> {
    let mut at = 0;
    for &start in starts.get(..clauses)? {
        let count = *words.get(at)? as usize;
        let literals = words.get(at + 1..at + 1 + count)?;
        let is_literal = |&literal: &u32| literal >= 2 && literal as usize / 2 <= variables;
        if start as usize != at || !literals.iter().all(is_literal) {
            return None;
        }
        at += 1 + count;
    }
    Some(at)
}
