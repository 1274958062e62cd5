//! Random claims: narrow ones, ones of any width that some run bears out, ones
//! behind comparisons or by a law of arithmetic, and ones of any kind, to which
//! perhaps no run comes.

use crate::guarded::draw_guarded;
use crate::identity::draw_identity;
use differential::claim::Claim as Drawn;
use differential::plan::Plan;
use differential::rng::Rng;
use pelletperiod::Claim;

/// A claim, and an input list that bears it out, if one is known.
pub struct Case {
    pub claim: Claim,
    pub witness: Option<Vec<u32>>,
}

pub fn draw(rng: &mut Rng) -> Case {
    match rng.below(10) {
        0..=1 => borne_out(Drawn::draw(rng)),
        2..=4 => borne_out(Drawn::draw_wide(rng)),
        5..=6 => unknown(draw_guarded(rng)),
        7..=8 => unknown(draw_identity(rng)),
        _ => any(rng),
    }
}

fn borne_out(drawn: Drawn) -> Case {
    Case {
        claim: Claim {
            routine: drawn.bytes,
            access: drawn.access,
            side: drawn.side,
            decisions: drawn.decisions,
        },
        witness: Some(drawn.witness),
    }
}

fn unknown(claim: Claim) -> Case {
    let witness = None;
    Case { claim, witness }
}

/// Few commands, so that the solvers mostly come to an end.
fn any(rng: &mut Rng) -> Case {
    loop {
        let mut plan = Plan::draw(rng);
        plan.ifs = plan.ifs.min(6);
        plan.plain = plan.plain.min(6);
        plan.full = false;
        let routine = plan.build(rng).encode();
        let counts = oracle::check(&routine).expect("a valid routine");
        if counts.accesses > 0 {
            return unknown(Claim {
                routine,
                access: rng.below(counts.accesses) as u8,
                side: rng.below(2) as u8,
                decisions: (0..counts.ifs).map(|_| rng.below(3) as u8).collect(),
            });
        }
    }
}
