//! A report to be judged: a routine, the report, and the buffers lent.

use crate::case::draw_answer_len;
use crate::compare::hex;
use crate::damage::{damage, Text};
use crate::fault::{faulty, AIMS as ROUTINE_AIMS};
use crate::lent::Lent;
use crate::proof_damage::{Attempt, AIMS as PROOF_AIMS};
use crate::report_damage::{damage_lead, shrink};
use crate::report_draft::Report;
use crate::rng::Rng;
use oracle::Room;
use pellet::ANSWER_LEN;
use std::fmt;

/// How a case came about.
#[derive(Clone, Copy, Debug, PartialEq, Eq)]
pub enum Kind {
    /// A good report with enough room.
    Good,
    /// A good report with something damaged: its bytes, the routine's, or the
    /// room.
    Damaged,
    /// A report on a claim that brute force refutes, with enough room.
    Forged,
    /// Such a report that would be good if each leftover were 0.
    Cleared,
}

pub struct ReportCase {
    pub kind: Kind,
    pub routine: Lent<u8>,
    pub report: Lent<u8>,
    pub words: Lent<u32>,
    pub starts: Lent<u32>,
    pub marks: Lent<u8>,
    pub values: Lent<u32>,
    pub trail: Lent<u8>,
    pub answer: Lent<u64>,
}

impl ReportCase {
    /// Draws a case of any kind.
    pub fn draw(rng: &mut Rng) -> Self {
        let mut parts = match rng.below(100) {
            0..=9 => Parts::forged(rng),
            10..=14 => Parts::cleared(rng),
            kind => Parts::of_good(rng, kind),
        };
        parts.add_room(rng);
        let answer = draw_answer_len(rng);
        parts.lend(rng, answer)
    }

    /// This report with just so much room.
    pub fn lending(rng: &mut Rng, routine: &[u8], report: &[u8], room: Room) -> Self {
        let parts = Parts {
            kind: Kind::Good,
            routine: Text::new(routine.to_vec()),
            report: Text::new(report.to_vec()),
            room,
        };
        parts.lend(rng, ANSWER_LEN)
    }

    pub fn room(&self) -> Room {
        Room {
            words: self.words.len(),
            starts: self.starts.len(),
            marks: self.marks.len(),
            values: self.values.len(),
            trail: self.trail.len(),
        }
    }
}

/// What a case is made of, before its buffers are.
struct Parts {
    kind: Kind,
    routine: Text,
    report: Text,
    room: Room,
}

impl Parts {
    fn new(kind: Kind, report: &Report, attempt: Attempt) -> Self {
        let mut text = attempt.text;
        let lead = report.refutation.lead.iter().copied();
        text.bytes.splice(0..0, lead);
        Parts {
            kind,
            routine: Text::new(report.claim.bytes.clone()),
            report: text,
            room: Room {
                words: attempt.words,
                starts: attempt.starts,
                marks: report.refutation.variables as usize + 1,
                values: report.claim.routine.header.widths.len(),
                trail: report.claim.routine.ifs,
            },
        }
    }

    /// Its proof as it is, or damaged so that another fault is met first.
    fn forged(rng: &mut Rng) -> Self {
        let report = Report::draw_forged(rng);
        let refutation = &report.refutation;
        let attempt = match rng.below(4) {
            0 => {
                let aim = rng.within(*PROOF_AIMS.start(), *PROOF_AIMS.end());
                Attempt::damaged(rng, refutation, aim)
            }
            _ => Attempt::good(refutation),
        };
        let mut parts = Parts::new(Kind::Forged, &report, attempt);
        if rng.chance(20) {
            damage(rng, &mut parts.report);
        }
        parts
    }

    fn cleared(rng: &mut Rng) -> Self {
        let report = Report::draw_cleared(rng);
        let attempt = Attempt::good(&report.refutation);
        Parts::new(Kind::Cleared, &report, attempt)
    }

    /// A good report, mostly damaged in the way that this number below 100
    /// stands for.
    fn of_good(rng: &mut Rng, kind: usize) -> Self {
        let report = Report::draw(rng);
        let attempt = match kind {
            35..=64 => {
                let aim = rng.within(*PROOF_AIMS.start(), *PROOF_AIMS.end());
                Attempt::damaged(rng, &report.refutation, aim)
            }
            _ => Attempt::good(&report.refutation),
        };
        let mut parts = Parts::new(Kind::Damaged, &report, attempt);
        match kind {
            65..=79 => damage_lead(rng, &report.claim, &mut parts.report),
            80..=88 => shrink(rng, &report.refutation, &mut parts.room),
            89..=91 => damage(rng, &mut parts.report),
            92..=95 => {
                let aim = rng.within(*ROUTINE_AIMS.start(), *ROUTINE_AIMS.end());
                parts.routine = faulty(rng, aim);
            }
            96 | 97 => damage(rng, &mut parts.routine),
            98 | 99 => parts.damage_all(rng, &report),
            35..=64 => {}
            _ => parts.kind = Kind::Good,
        }
        parts
    }

    /// Faults in several places, so that the order of the refusals matters.
    fn damage_all(&mut self, rng: &mut Rng, report: &Report) {
        for _ in 0..2 {
            // A lead that was cut has no bytes to damage.
            if self.report.bytes.len() >= report.refutation.lead.len() {
                damage_lead(rng, &report.claim, &mut self.report);
            }
        }
        shrink(rng, &report.refutation, &mut self.room);
        damage(rng, &mut self.report);
    }

    /// Often more room than needed, in some buffers.
    fn add_room(&mut self, rng: &mut Rng) {
        let room = &mut self.room;
        for len in [
            &mut room.words,
            &mut room.starts,
            &mut room.marks,
            &mut room.values,
            &mut room.trail,
        ] {
            // What was made too small mostly stays so.
            if rng.chance(if self.kind == Kind::Damaged { 5 } else { 30 }) {
                *len += rng.within(1, 30);
            }
        }
    }

    fn lend(self, rng: &mut Rng, answer: usize) -> ReportCase {
        ReportCase {
            kind: self.kind,
            routine: Lent::holding(rng, &self.routine.bytes, &self.routine.beyond),
            report: Lent::holding(rng, &self.report.bytes, &self.report.beyond),
            words: Lent::noise(rng, self.room.words),
            starts: Lent::noise(rng, self.room.starts),
            marks: Lent::noise(rng, self.room.marks),
            values: Lent::noise(rng, self.room.values),
            trail: Lent::noise(rng, self.room.trail),
            answer: Lent::noise(rng, answer),
        }
    }
}

impl fmt::Display for ReportCase {
    fn fmt(&self, f: &mut fmt::Formatter<'_>) -> fmt::Result {
        let routine = self.routine.slice();
        writeln!(f, "routine ({} bytes): {}", routine.len(), hex(routine))?;
        // A long report would fill the screen.
        let report = self.report.slice();
        let shown = &report[..report.len().min(2000)];
        writeln!(f, "report ({} bytes): {}", report.len(), hex(shown))?;
        let (room, answer) = (self.room(), self.answer.len());
        writeln!(f, "{:?}, lent: {room:?}, answer {answer}", self.kind)
    }
}
