//! The translation of a claim: counted first, and written where it fits. Its
//! space is the count alone.

use crate::fast_check::{check, Routine};
use crate::fast_refusal::Refusal;
use crate::fast_sink::{Counter, Sink};
use crate::fast_walk::walk;
use crate::fast_writer::Writer;
use pellet::{ANSWER_LEN, ANSWER_TOO_SHORT, MAX_ENTRIES};

const LEAD_LENGTH: u8 = 11;
const LEAD_RANGE: u8 = 12;
const BUFFER: u8 = 16;

/// What is claimed: the access and the side, and the decisions.
#[derive(Clone, Copy)]
pub struct Claim<'a> {
    pub access: u8,
    pub side: u8,
    pub decisions: &'a [u8],
}

/// What a translation takes.
#[derive(Clone, Copy)]
pub struct Size {
    pub clauses: usize,
    pub words: usize,
    pub variables: usize,
}

pub fn translate(
    bytes: &[u8],
    claim: Claim,
    words: &mut [u32],
    starts: &mut [u32],
    answer: &mut [u64],
) -> u8 {
    if answer.len() < ANSWER_LEN {
        return ANSWER_TOO_SHORT;
    }
    let fitted = check(bytes).and_then(|routine| {
        admit(&routine, claim)?;
        fit(bytes, &routine, claim, words, starts)
    });
    give(fitted, answer)
}

/// What `translate` answers in buffers that suffice.
pub fn space(bytes: &[u8], claim: Claim, answer: &mut [u64]) -> u8 {
    if answer.len() < ANSWER_LEN {
        return ANSWER_TOO_SHORT;
    }
    let counted = check(bytes).and_then(|routine| {
        admit(&routine, claim)?;
        Ok(walk_into(bytes, &routine, claim, Counter::default()))
    });
    give(counted, answer)
}

/// Puts what a translation takes into `answer`, or the refusal's place.
fn give(size: Result<Size, Refusal>, answer: &mut [u64]) -> u8 {
    match size {
        Ok(size) => {
            answer[0] = size.clauses as u64;
            answer[1] = size.words as u64;
            answer[2] = size.variables as u64;
            0
        }
        Err(refusal) => refusal.give(answer),
    }
}

/// 11, then 12.
pub fn admit(routine: &Routine, claim: Claim) -> Result<(), Refusal> {
    if claim.decisions.len() != routine.counts.ifs as usize {
        return Err(Refusal(LEAD_LENGTH, claim.decisions.len()));
    }
    if claim.access >= routine.counts.accesses {
        return Err(Refusal(LEAD_RANGE, 0));
    }
    if claim.side > 1 {
        return Err(Refusal(LEAD_RANGE, 1));
    }
    match claim.decisions.iter().position(|&decision| decision > 2) {
        Some(number) => Err(Refusal(LEAD_RANGE, 2 + number)),
        None => Ok(()),
    }
}

/// 16, and the translation.
pub fn fit(
    bytes: &[u8],
    routine: &Routine,
    claim: Claim,
    words: &mut [u32],
    starts: &mut [u32],
) -> Result<Size, Refusal> {
    let need = walk_into(bytes, routine, claim, Counter::default());
    if words.len().min(MAX_ENTRIES) < need.words {
        return Err(Refusal(BUFFER, 0));
    }
    if starts.len().min(MAX_ENTRIES) < need.clauses {
        return Err(Refusal(BUFFER, 1));
    }
    let writer = Writer::new(words, starts);
    Ok(walk_into(bytes, routine, claim, writer))
}

/// Few variables make little state to keep at an if.
fn walk_into<S: Sink>(bytes: &[u8], routine: &Routine, claim: Claim, sink: S) -> Size {
    let header = &routine.header;
    match header.variables {
        0..=4 => walk::<S, 4>(bytes, header, claim, sink),
        5..=8 => walk::<S, 8>(bytes, header, claim, sink),
        _ => walk::<S, 32>(bytes, header, claim, sink),
    }
}
