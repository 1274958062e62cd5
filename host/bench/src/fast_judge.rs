//! The judging of a whole report: the lead, the witness, the translation and
//! the proof; then everything lent is zeroed.

use crate::fast_check::{check, Routine};
use crate::fast_machine::{End, Machine, Watch};
use crate::fast_proof::{self, Given};
use crate::fast_refusal::Refusal;
use crate::fast_run::check_inputs;
use crate::fast_translate::{admit, fit, Claim};
use crate::lent::Buffers;
use pellet::{ANSWER_LEN, ANSWER_TOO_SHORT, MAX_ENTRIES};

const CUT: u8 = 11;
const OTHER_WAY: u8 = 13;
const NOT_COME_TO: u8 = 14;
const NOT_ON_SIDE: u8 = 15;
const BUFFER: u8 = 16;

pub fn judge(bytes: &[u8], report: &[u8], lent: &mut Buffers, answer: &mut [u64]) -> u8 {
    if answer.len() < ANSWER_LEN {
        zero(lent);
        return ANSWER_TOO_SHORT;
    }
    let judged = decide(bytes, report, lent);
    zero(lent);
    match judged {
        Ok(entries) => {
            answer[..entries.len()].copy_from_slice(&entries);
            0
        }
        Err(refusal) => refusal.give(answer),
    }
}

/// The first entries of all five buffers become 0.
pub fn zero(lent: &mut Buffers) {
    fn first<T>(buffer: &mut [T]) -> &mut [T] {
        let used = buffer.len().min(MAX_ENTRIES);
        &mut buffer[..used]
    }
    first(&mut lent.words).fill(0);
    first(&mut lent.starts).fill(0);
    first(&mut lent.marks).fill(0);
    first(&mut lent.values).fill(0);
    first(&mut lent.trail).fill(0);
}

fn decide(bytes: &[u8], report: &[u8], lent: &mut Buffers) -> Result<[u64; 8], Refusal> {
    let routine = check(bytes)?;
    let ifs = routine.counts.ifs as usize;
    let inputs = routine.header.variables + routine.counts.reads as usize;
    let lead = 2 + ifs + 4 * inputs;
    if report.len() > MAX_ENTRIES || report.len() < lead {
        return Err(Refusal(CUT, report.len()));
    }
    let claim = Claim {
        access: report[0],
        side: report[1],
        decisions: &report[2..2 + ifs],
    };
    admit(&routine, claim)?;
    let (array, index) = witnessed(bytes, &routine, claim, &report[2 + ifs..lead])?;
    let (steps, hints) = prove(bytes, &routine, claim, report, lead, lent)?;
    Ok([
        u64::from(claim.access),
        u64::from(claim.side),
        u64::from(array),
        u64::from(routine.header.size(array)),
        u64::from(index < 0),
        u64::from(index.unsigned_abs()),
        steps,
        hints,
    ])
}

impl Watch for Claim<'_> {
    fn allows(&self, number: u8, accesses: u8, arm: u8) -> bool {
        let decision = self.decisions[number as usize];
        accesses > self.access || decision == 2 || decision == arm
    }

    fn names(&self, access: u8) -> bool {
        access == self.access
    }
}

/// 10, then 13 or 14, then 15.
fn witnessed(
    bytes: &[u8],
    routine: &Routine,
    claim: Claim,
    words: &[u8],
) -> Result<(u8, i32), Refusal> {
    let mut inputs = [0; 96];
    let count = words.len() / 4;
    for (input, word) in inputs.iter_mut().zip(words.chunks_exact(4)) {
        *input = u32::from_le_bytes([word[0], word[1], word[2], word[3]]);
    }
    let inputs = &inputs[..count];
    check_inputs(&routine.header, &routine.counts, inputs)?;
    let access = claim.access as usize;
    let (array, index) = match Machine::new(routine, inputs, claim).run(bytes) {
        End::Arrived { array, index } => (array, index),
        End::Astray(number) => return Err(Refusal(OTHER_WAY, number as usize)),
        End::Ended | End::Stopped { .. } => return Err(Refusal(NOT_COME_TO, access)),
    };
    let is_on_side = match claim.side {
        0 => index < 0,
        _ => index >= i32::from(routine.header.size(array)),
    };
    if !is_on_side {
        return Err(Refusal(NOT_ON_SIDE, access));
    }
    Ok((array, index))
}

/// 16, then the proof.
fn prove(
    bytes: &[u8],
    routine: &Routine,
    claim: Claim,
    report: &[u8],
    from: usize,
    lent: &mut Buffers,
) -> Result<(u64, u64), Refusal> {
    let words_len = lent.words.len().min(MAX_ENTRIES);
    let starts_len = lent.starts.len().min(MAX_ENTRIES);
    let words = &mut lent.words[..words_len];
    let starts = &mut lent.starts[..starts_len];
    let size = fit(bytes, routine, claim, words, starts)?;
    if lent.marks.len().min(MAX_ENTRIES) <= size.variables {
        return Err(Refusal(BUFFER, 2));
    }
    if lent.values.len() < routine.header.variables {
        return Err(Refusal(BUFFER, 3));
    }
    if lent.trail.len() < routine.counts.ifs as usize {
        return Err(Refusal(BUFFER, 4));
    }
    let marks = &mut lent.marks[..=size.variables];
    marks.fill(0);
    let given = Given {
        clauses: size.clauses,
        words: size.words,
    };
    fast_proof::check(report, from, given, words, starts, marks)
}
