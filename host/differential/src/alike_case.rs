//! Two reports on one routine, of which it is asked whether they are alike.

use crate::case::draw_answer_len;
use crate::claim::Claim;
use crate::compare::hex;
use crate::damage::{damage, Text};
use crate::fault::{faulty, AIMS};
use crate::lent::Lent;
use crate::report_damage::{damage_lead, damage_lead_for};
use crate::rng::Rng;
use pellet::ANSWER_LEN;
use std::fmt;

pub struct AlikeCase {
    pub routine: Lent<u8>,
    pub first: Lent<u8>,
    pub second: Lent<u8>,
    pub answer: Lent<u64>,
}

impl AlikeCase {
    /// Draws a case of any kind.
    pub fn draw(rng: &mut Rng) -> Self {
        let claim = Claim::draw(rng);
        let (first, second) = (draw_report(rng, &claim), draw_report(rng, &claim));
        let mut routine = Text::new(claim.bytes);
        match rng.below(20) {
            0 | 1 => {
                let aim = rng.within(*AIMS.start(), *AIMS.end());
                routine = faulty(rng, aim);
            }
            2 => damage(rng, &mut routine),
            _ => {}
        }
        let answer = draw_answer_len(rng);
        AlikeCase {
            routine: Lent::holding(rng, &routine.bytes, &routine.beyond),
            first: Lent::holding(rng, &first.bytes, &first.beyond),
            second: Lent::holding(rng, &second.bytes, &second.beyond),
            answer: Lent::noise(rng, answer),
        }
    }

    pub fn of(rng: &mut Rng, routine: &[u8], first: &[u8], second: &[u8]) -> Self {
        AlikeCase {
            routine: Lent::holding(rng, routine, &[]),
            first: Lent::holding(rng, first, &[]),
            second: Lent::holding(rng, second, &[]),
            answer: Lent::noise(rng, ANSWER_LEN),
        }
    }
}

/// A report on the claim or on one like it, with any witness and any bytes as
/// its proof; often damaged.
fn draw_report(rng: &mut Rng, claim: &Claim) -> Text {
    let mut claim = claim.clone();
    if rng.chance(20) {
        claim.access = rng.below(claim.routine.accesses) as u8;
    }
    if rng.chance(20) {
        claim.side = 1 - claim.side;
    }
    for decision in &mut claim.decisions {
        if rng.chance(20) {
            *decision = rng.below(3) as u8;
        }
    }
    let tried = rng.below(claim.tried.len());
    let mut report = Text::new(claim.lead_with(&claim.tried[tried].inputs));
    for _ in 0..rng.pick(&[0, 0, 1, 20]) {
        report.bytes.push(rng.byte());
    }
    match rng.below(10) {
        0 => damage_lead_for(rng, &claim, &mut report, 11),
        1 => damage_lead_for(rng, &claim, &mut report, 12),
        2 => damage_lead(rng, &claim, &mut report),
        3 => damage(rng, &mut report),
        _ => {}
    }
    report
}

impl fmt::Display for AlikeCase {
    fn fmt(&self, f: &mut fmt::Formatter<'_>) -> fmt::Result {
        let routine = self.routine.slice();
        writeln!(f, "routine ({} bytes): {}", routine.len(), hex(routine))?;
        for report in [&self.first, &self.second] {
            let report = report.slice();
            let shown = &report[..report.len().min(2000)];
            writeln!(f, "report ({} bytes): {}", report.len(), hex(shown))?;
        }
        writeln!(f, "lent: answer {}", self.answer.len())
    }
}
