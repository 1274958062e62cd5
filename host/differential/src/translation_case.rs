//! A translation to be made: a routine, the access, side and decisions, and the
//! buffers lent for it and for being told its space beforehand.

use crate::case::{draw_answer_len, draw_len};
use crate::compare::hex;
use crate::damage::{damage, Text};
use crate::draft::Header;
use crate::fault::{faulty, AIMS};
use crate::lent::Lent;
use crate::plan::Plan;
use crate::rng::Rng;
use oracle::Routine;
use pellet::ANSWER_LEN;
use std::fmt;

pub struct TranslationCase {
    pub routine: Lent<u8>,
    pub access: u8,
    pub side: u8,
    pub decisions: Lent<u8>,
    pub words: Lent<u32>,
    pub starts: Lent<u32>,
    pub answer: Lent<u64>,
    pub space_answer: Lent<u64>,
}

impl TranslationCase {
    /// Draws a case of any kind.
    pub fn draw(rng: &mut Rng) -> Self {
        let text = draw_text(rng);
        let routine = oracle::parse(&text.bytes).ok();
        let access = draw_access(rng, routine.as_ref().map_or(3, |routine| routine.accesses));
        let side = draw_side(rng);
        let (decisions, beyond) = draw_decisions(rng, routine.as_ref());
        let (clauses, words) = needed(rng, &text.bytes, access, side, &decisions);
        let (words, starts) = (draw_len(rng, words), draw_len(rng, clauses));
        let (answer, space_answer) = (draw_answer_len(rng), draw_answer_len(rng));
        TranslationCase {
            routine: Lent::holding(rng, &text.bytes, &text.beyond),
            access,
            side,
            decisions: Lent::holding(rng, &decisions, &beyond),
            words: Lent::noise(rng, words),
            starts: Lent::noise(rng, starts),
            answer: Lent::noise(rng, answer),
            space_answer: Lent::noise(rng, space_answer),
        }
    }

    /// This translation with buffers of these lengths.
    pub fn lending(
        rng: &mut Rng,
        routine: &[u8],
        (access, side, decisions): (u8, u8, &[u8]),
        (words, starts): (usize, usize),
    ) -> Self {
        TranslationCase {
            routine: Lent::holding(rng, routine, &[]),
            access,
            side,
            decisions: Lent::holding(rng, decisions, &[]),
            words: Lent::noise(rng, words),
            starts: Lent::noise(rng, starts),
            answer: Lent::noise(rng, ANSWER_LEN),
            space_answer: Lent::noise(rng, ANSWER_LEN),
        }
    }
}

fn draw_text(rng: &mut Rng) -> Text {
    match rng.below(20) {
        0 | 1 => {
            let aim = rng.within(*AIMS.start(), *AIMS.end());
            faulty(rng, aim)
        }
        2 => {
            let mut text = Text::new(draw_plan(rng).build(rng).encode());
            damage(rng, &mut text);
            text
        }
        _ => Text::new(draw_plan(rng).build(rng).encode()),
    }
}

/// A plan that mostly has accesses, and sizes at which the circuit of an
/// access changes. Few are filled up: those can need millions of words.
fn draw_plan(rng: &mut Rng) -> Plan {
    let mut plan = Plan::draw(rng);
    if plan.header.sizes.is_empty() && rng.chance(80) {
        plan.header.sizes.push(1);
    }
    if plan.accesses == 0 && !plan.header.sizes.is_empty() && rng.chance(80) {
        plan.accesses = rng.within(1, 8);
    }
    plan.full &= rng.chance(15);
    draw_sizes(rng, &mut plan.header);
    plan
}

/// Makes many sizes the greatest number that a variable can hold as a positive
/// one, or a neighbour of it.
pub fn draw_sizes(rng: &mut Rng, header: &mut Header) {
    for size in &mut header.sizes {
        if rng.chance(60) {
            let half = 1_usize << (rng.pick(&header.widths) - 1).min(12);
            *size = rng
                .pick(&[half - 1, half - 1, half, half + 1])
                .clamp(1, 4096) as u16;
        }
    }
}

/// An access of the routine, often its last, or one that it does not have.
fn draw_access(rng: &mut Rng, accesses: usize) -> u8 {
    let access = match rng.below(20) {
        0 => rng.pick(&[accesses, accesses + 1, 64, 255]),
        1..=8 => accesses.saturating_sub(1),
        _ => rng.below(accesses.max(1)),
    };
    access as u8
}

fn draw_side(rng: &mut Rng) -> u8 {
    match rng.below(30) {
        0 => rng.pick(&[2, 3, 128, 255]),
        _ => rng.below(2) as u8,
    }
}

/// The decisions, and what lies behind them in memory.
fn draw_decisions(rng: &mut Rng, routine: Option<&Routine>) -> (Vec<u8>, Vec<u8>) {
    let ifs = match routine {
        Some(routine) => routine.ifs,
        None => rng.below(33),
    };
    let free = rng.pick(&[0, 30, 60, 90, 100]);
    let mut decisions: Vec<u8> = (0..ifs)
        .map(|_| {
            if rng.chance(free) {
                2
            } else {
                rng.below(2) as u8
            }
        })
        .collect();
    if ifs > 0 && rng.chance(5) {
        for _ in 0..rng.within(1, 2) {
            decisions[rng.below(ifs)] = rng.pick(&[3, 4, 128, 255]);
        }
    }
    let mut beyond = Vec::new();
    match rng.below(30) {
        0 if ifs > 0 => beyond = decisions.split_off(rng.pick(&[ifs - 1, ifs - 1, 0])),
        1 => decisions.resize(ifs + rng.within(1, 3), 2),
        _ => {}
    }
    (decisions, beyond)
}

/// How many clauses and words are needed; some numbers where the translation
/// is refused, as they must then not matter.
fn needed(rng: &mut Rng, routine: &[u8], access: u8, side: u8, decisions: &[u8]) -> (usize, usize) {
    match oracle::measure(routine, access, side, decisions) {
        Ok(translation) => (translation.clauses, translation.words),
        Err(_) => (rng.below(40), rng.below(40)),
    }
}

impl fmt::Display for TranslationCase {
    fn fmt(&self, f: &mut fmt::Formatter<'_>) -> fmt::Result {
        let routine = self.routine.slice();
        writeln!(f, "routine ({} bytes): {}", routine.len(), hex(routine))?;
        writeln!(
            f,
            "access {} side {} decisions {:?}",
            self.access,
            self.side,
            self.decisions.slice()
        )?;
        writeln!(
            f,
            "lent: words {}, starts {}, answer {} for the translation, {} for its space",
            self.words.len(),
            self.starts.len(),
            self.answer.len(),
            self.space_answer.len()
        )
    }
}
