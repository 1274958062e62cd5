//! Claims about narrow routines, and what brute force says of them.

use crate::guarded::{draw_guarded, Taken};
use crate::leftovers::{cleared, cleared_clauses, leaves_something};
use crate::narrow::draw_narrow;
use crate::plan::{draw_value, Plan};
use crate::rng::Rng;
use oracle::exhaustive::{input_bits, try_every_input, Tried, MAX_INPUT_BITS};
use oracle::{translate, Arm, Clauses, Outcome, Routine, Run, Side, Translation};

/// How many lists are run in search of one that stops.
const TRIES: usize = 6;

/// That every run which goes the way of the decisions and comes to the access
/// has its index there on the side.
#[derive(Clone)]
pub struct Claim {
    pub bytes: Vec<u8>,
    pub routine: Routine,
    pub access: u8,
    pub side: u8,
    pub decisions: Vec<u8>,
    /// A list whose run is as claimed.
    pub witness: Vec<u32>,
    /// What the run says on every input list; nothing for a wide routine.
    pub tried: Vec<Tried>,
}

impl Claim {
    /// Draws a claim that its witness bears out; other lists may not.
    pub fn draw(rng: &mut Rng) -> Self {
        loop {
            let (bytes, routine) = match rng.chance(60) {
                true => draw_guarded(rng, Taken::Any),
                false => draw_narrow(rng),
            };
            if let Some((witness, run)) = draw_stopping(rng, &bytes, &routine, Taken::Any) {
                return Claim::of(rng, bytes, routine, witness, &run);
            }
        }
    }

    /// Draws a claim that its witness bears out, in which each leftover is 0;
    /// often other leftovers are all that could refute it.
    pub fn draw_cleared(rng: &mut Rng) -> Self {
        loop {
            let (bytes, routine) = match rng.chance(80) {
                true => draw_guarded(rng, Taken::Zero),
                false => draw_narrow(rng),
            };
            if let Some((witness, run)) = draw_stopping(rng, &bytes, &routine, Taken::Zero) {
                return Claim::of(rng, bytes, routine, witness, &run);
            }
        }
    }

    /// Draws a claim about a routine of any widths that its witness bears out.
    /// Other lists are too many to go through.
    pub fn draw_wide(rng: &mut Rng) -> Self {
        loop {
            let bytes = draw_wide_plan(rng).build(rng).encode();
            let routine = oracle::parse(&bytes).expect("a valid routine");
            if let Some((witness, run)) = draw_stopping(rng, &bytes, &routine, Taken::Any) {
                return Claim::of(rng, bytes, routine, witness, &run);
            }
        }
    }

    fn of(rng: &mut Rng, bytes: Vec<u8>, routine: Routine, witness: Vec<u32>, run: &Run) -> Self {
        let (access, side) = match run.outcome {
            Outcome::Stopped { access, side, .. } => (access as u8, side_byte(side)),
            Outcome::Ended => unreachable!("the witness's run stops"),
        };
        let decisions = draw_decisions(rng, &run.trail);
        let is_narrow = input_bits(&routine) <= MAX_INPUT_BITS;
        let tried = match is_narrow {
            true => try_every_input(&bytes, (access, side, &decisions)).expect("a narrow claim"),
            false => Vec::new(),
        };
        Claim {
            bytes,
            routine,
            access,
            side,
            decisions,
            witness,
            tried,
        }
    }

    /// Whether every list that was tried bears the claim out.
    pub fn holds(&self) -> bool {
        !self.tried.iter().any(refutes)
    }

    /// Whether every list that was tried does where each leftover is 0.
    pub fn holds_cleared(&self) -> bool {
        let is_cleared = |tried: &&Tried| !leaves_something(&self.routine, &tried.inputs);
        !self.tried.iter().filter(is_cleared).any(refutes)
    }

    /// The lead of a report on this claim, with the claim's own witness.
    pub fn lead(&self) -> Vec<u8> {
        self.lead_with(&self.witness)
    }

    pub fn lead_with(&self, witness: &[u32]) -> Vec<u8> {
        let mut lead = vec![self.access, self.side];
        lead.extend(&self.decisions);
        lead.extend(witness.iter().flat_map(|word| word.to_le_bytes()));
        lead
    }

    /// The clauses, which nothing satisfies where the claim holds, and the
    /// number of variables.
    pub fn clauses(&self) -> (Vec<Vec<u32>>, u32) {
        let (clauses, translation) = self.translated();
        (clauses, translation.variables as u32)
    }

    /// The clauses as they would be if each leftover were 0.
    pub fn cleared_clauses(&self) -> Vec<Vec<u32>> {
        let (clauses, translation) = self.translated();
        cleared_clauses(&self.routine, &translation, &clauses)
    }

    fn translated(&self) -> (Vec<Vec<u32>>, Translation) {
        let mut clauses = Clauses::default();
        let (access, side, decisions) = (self.access, self.side, &self.decisions);
        let translation = translate(&self.bytes, access, side, decisions, &mut clauses);
        (clauses.numbers(), translation.expect("a valid claim"))
    }
}

/// Whether a list shows that a claim is not so.
pub fn refutes(tried: &Tried) -> bool {
    tried.arrives && !tried.is_on_side
}

pub fn side_byte(side: Side) -> u8 {
    match side {
        Side::Below => 0,
        Side::Above => 1,
    }
}

/// A plan with few commands and an access that is likely to be outside.
fn draw_wide_plan(rng: &mut Rng) -> Plan {
    let mut plan = Plan::draw(rng);
    if plan.header.sizes.is_empty() {
        plan.header.sizes.push(rng.within(1, 4096) as u16);
    }
    Plan {
        ifs: plan.ifs.min(4),
        accesses: rng.within(1, 4),
        plain: plan.plain.min(4),
        stray: true,
        steady: 100,
        full: false,
        ..plan
    }
}

/// An input list whose run stops, if one is found soon.
fn draw_stopping(
    rng: &mut Rng,
    bytes: &[u8],
    routine: &Routine,
    taken: Taken,
) -> Option<(Vec<u32>, Run)> {
    let widths = routine.input_widths();
    let sizes: Vec<u16> = (routine.header.sizes.iter())
        .map(|&size| size as u16)
        .collect();
    (0..TRIES).find_map(|_| {
        let draw = |&width: &u32| draw_value(rng, width as u8, &sizes);
        let mut inputs: Vec<u32> = widths.iter().map(draw).collect();
        if taken == Taken::Zero {
            inputs = cleared(routine, &inputs);
        }
        let run = oracle::run(bytes, &inputs, 32, 32).expect("an accepted list");
        (run.outcome != Outcome::Ended).then_some((inputs, run))
    })
}

/// Decisions that a run with this trail keeps to: at an if that it came to, the
/// arm or free; at any other, whatever it be.
fn draw_decisions(rng: &mut Rng, trail: &[Arm]) -> Vec<u8> {
    let free = rng.pick(&[0, 0, 30, 60, 100]);
    let draw = |arm: &Arm| match arm {
        Arm::NotComeTo => rng.below(3) as u8,
        _ if rng.chance(free) => 2,
        _ => arm.byte(),
    };
    trail.iter().map(draw).collect()
}
