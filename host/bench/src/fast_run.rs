//! The run of a routine: the check, the inputs, the buffers, and then the run.

use crate::fast_check::{check, Counts};
use crate::fast_header::Header;
use crate::fast_machine::{End, Machine, Unwatched};
use crate::fast_refusal::Refusal;
use crate::fast_word::reduce;
use pellet::{ANSWER_LEN, ANSWER_TOO_SHORT};

const INPUT_COUNT: u8 = 9;
const INPUT_RANGE: u8 = 10;
const BUFFER: u8 = 16;

pub fn run(
    bytes: &[u8],
    inputs: &[u32],
    values: &mut [u32],
    trail: &mut [u8],
    answer: &mut [u64],
) -> u8 {
    if answer.len() < ANSWER_LEN {
        return ANSWER_TOO_SHORT;
    }
    match carry_out(bytes, inputs, values, trail) {
        Ok(End::Stopped { access, index }) => {
            let is_negative = index < 0;
            answer[..5].copy_from_slice(&[
                1,
                u64::from(access),
                u64::from(!is_negative),
                u64::from(is_negative),
                u64::from(index.unsigned_abs()),
            ]);
        }
        Ok(_) => answer[0] = 0,
        Err(refusal) => return refusal.give(answer),
    }
    0
}

fn carry_out(
    bytes: &[u8],
    inputs: &[u32],
    values: &mut [u32],
    trail: &mut [u8],
) -> Result<End, Refusal> {
    let routine = check(bytes)?;
    check_inputs(&routine.header, &routine.counts, inputs)?;
    let (variables, ifs) = (routine.header.variables, routine.counts.ifs as usize);
    let values = values.get_mut(..variables).ok_or(Refusal(BUFFER, 3))?;
    let trail = trail.get_mut(..ifs).ok_or(Refusal(BUFFER, 4))?;
    let mut machine = Machine::new(&routine, inputs, Unwatched);
    let end = machine.run(bytes);
    values.copy_from_slice(&machine.values[..variables]);
    trail.copy_from_slice(&machine.trail[..ifs]);
    Ok(end)
}

/// 9, then 10.
pub fn check_inputs(header: &Header, counts: &Counts, inputs: &[u32]) -> Result<(), Refusal> {
    if inputs.len() != header.variables + counts.reads as usize {
        return Err(Refusal(INPUT_COUNT, inputs.len()));
    }
    let is_wide = |(&word, variable): (&u32, u8)| reduce(word, header.width(variable)) != word;
    let variables = (0..header.variables as u8).chain(counts.read_by);
    match inputs.iter().zip(variables).position(is_wide) {
        Some(number) => Err(Refusal(INPUT_RANGE, number)),
        None => Ok(()),
    }
}
