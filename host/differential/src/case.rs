//! A case: a routine, an input list, and the buffers lent for one check and
//! one run of it.

use crate::damage::{damage, Text};
use crate::fault::{faulty, AIMS};
use crate::leftovers::leftovers;
use crate::lent::Lent;
use crate::plan::{draw_value, Plan};
use crate::rng::{Noise, Rng};
use oracle::Routine;
use pellet::ANSWER_LEN;

pub struct Case {
    pub routine: Lent<u8>,
    pub inputs: Lent<u32>,
    pub check_answer: Lent<u64>,
    pub values: Lent<u32>,
    pub trail: Lent<u8>,
    pub run_answer: Lent<u64>,
}

impl Case {
    /// Draws a case of any kind.
    pub fn draw(rng: &mut Rng) -> Self {
        let text = draw_text(rng);
        let routine = oracle::parse(&text.bytes).ok();
        let (inputs, beyond) = draw_inputs(rng, routine.as_ref());
        let (variables, ifs) = needed(rng, routine.as_ref());
        let (values, trail) = (draw_len(rng, variables), draw_len(rng, ifs));
        let (check_answer, run_answer) = (draw_answer_len(rng), draw_answer_len(rng));
        Case {
            routine: Lent::holding(rng, &text.bytes, &text.beyond),
            inputs: Lent::holding(rng, &inputs, &beyond),
            check_answer: Lent::noise(rng, check_answer),
            values: Lent::noise(rng, values),
            trail: Lent::noise(rng, trail),
            run_answer: Lent::noise(rng, run_answer),
        }
    }

    /// A case of this routine and these inputs, with buffers that suffice for
    /// every routine.
    pub fn ample(rng: &mut Rng, routine: &[u8], inputs: &[u32]) -> Self {
        Case {
            routine: Lent::holding(rng, routine, &[]),
            inputs: Lent::holding(rng, inputs, &[]),
            check_answer: Lent::noise(rng, ANSWER_LEN),
            values: Lent::noise(rng, 32),
            trail: Lent::noise(rng, 32),
            run_answer: Lent::noise(rng, ANSWER_LEN),
        }
    }
}

fn draw_text(rng: &mut Rng) -> Text {
    let mut text = match rng.below(20) {
        0..=7 => {
            let aim = rng.within(*AIMS.start(), *AIMS.end());
            faulty(rng, aim)
        }
        8..=10 => {
            let mut text = Text::new(Plan::draw(rng).build(rng).encode());
            damage(rng, &mut text);
            text
        }
        _ => Text::new(Plan::draw(rng).build(rng).encode()),
    };
    // Where nothing was cut off, noise lies behind the routine, or zeros,
    // which a reader that goes too far takes for the end.
    if text.beyond.is_empty() && rng.chance(30) {
        text.beyond = vec![0; 8];
    }
    text
}

/// How many values and trail bytes are needed; some number where the routine
/// is refused, as it must then not matter.
fn needed(rng: &mut Rng, routine: Option<&Routine>) -> (usize, usize) {
    match routine {
        Some(routine) => (routine.header.widths.len(), routine.ifs),
        None => (rng.below(33), rng.below(33)),
    }
}

/// The inputs, and what lies behind them in memory.
fn draw_inputs(rng: &mut Rng, routine: Option<&Routine>) -> (Vec<u32>, Vec<u32>) {
    let routine = match routine {
        Some(routine) => routine,
        None => {
            let count = rng.below(12);
            return ((0..count).map(|_| u32::noise(rng)).collect(), Vec::new());
        }
    };
    let widths = routine.input_widths();
    let sizes: Vec<u16> = routine
        .header
        .sizes
        .iter()
        .map(|&size| size as u16)
        .collect();
    let mut inputs: Vec<u32> = widths
        .iter()
        .map(|&width| draw_value(rng, width as u8, &sizes))
        .collect();
    if rng.chance(10) {
        make_too_great(rng, &widths, &mut inputs);
    }
    let beyond = match rng.below(100) {
        0..=12 => change_count(rng, &mut inputs),
        13..=15 => inputs.drain(leftovers(routine)).collect(),
        _ => Vec::new(),
    };
    (inputs, beyond)
}

/// Takes inputs away or puts some more; hands back what was taken away.
fn change_count(rng: &mut Rng, inputs: &mut Vec<u32>) -> Vec<u32> {
    if rng.chance(60) {
        let last = inputs.len() - 1;
        let kept = if rng.chance(50) {
            last
        } else {
            rng.below(inputs.len())
        };
        return inputs.split_off(kept);
    }
    for _ in 0..rng.within(1, 3) {
        inputs.push(rng.below(3) as u32);
    }
    Vec::new()
}

/// Makes one or two inputs too great for their variables, where those have
/// fewer than 32 bits.
fn make_too_great(rng: &mut Rng, widths: &[u32], inputs: &mut [u32]) {
    for _ in 0..rng.within(1, 2) {
        let input = rng.below(inputs.len());
        if widths[input] < 32 {
            let least = 1_u32 << widths[input];
            inputs[input] = rng.pick(&[least, least, least + 1, 1 << 31, u32::MAX]);
        }
    }
}

/// The length of a buffer: just enough, more, or too little.
pub(crate) fn draw_len(rng: &mut Rng, needed: usize) -> usize {
    match rng.below(20) {
        0 => 0,
        1 => needed.saturating_sub(1),
        2 => rng.below(needed + 1),
        3..=7 => needed + rng.within(1, 8),
        _ => needed,
    }
}

pub(crate) fn draw_answer_len(rng: &mut Rng) -> usize {
    match rng.below(25) {
        0..=1 => rng.below(ANSWER_LEN),
        2..=9 => ANSWER_LEN + rng.within(1, 4),
        _ => ANSWER_LEN,
    }
}
