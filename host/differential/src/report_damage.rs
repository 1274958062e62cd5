//! Damage to the leads of good reports that aims at one of the refusals 10 to
//! 15, and to the room lent that aims at 16. What a damaged report is then
//! refused for is the oracle's to say, not assumed here.

use crate::claim::{refutes, Claim};
use crate::damage::Text;
use crate::leftovers::in_lead;
use crate::proof_draft::Refutation;
use crate::rng::Rng;
use crate::truth::lead_parts;
use oracle::exhaustive::Tried;
use oracle::{site_of, Arm, Room};

/// The numbers that are aimed at in a lead. Some are missed often, as not every
/// routine has an if or a run that passes the access by.
const LEAD_AIMS: &[u8] = &[10, 11, 12, 13, 13, 14, 14, 14, 14, 15, 15];

/// Damages the lead of a report on this claim.
pub fn damage_lead(rng: &mut Rng, claim: &Claim, report: &mut Text) {
    if rng.chance(10) {
        return leave_out(claim, report);
    }
    let aim = rng.pick(LEAD_AIMS);
    damage_lead_for(rng, claim, report, aim);
}

/// Damages the lead so that it is likely to be refused with this number.
pub fn damage_lead_for(rng: &mut Rng, claim: &Claim, report: &mut Text, aim: u8) {
    match aim {
        10 => great_input(rng, claim, report),
        11 => cut(rng, claim, report),
        12 => out_of_range(rng, claim, report),
        13 => other_arm(rng, claim, report),
        14 => other_access(rng, claim, report),
        _ => other_side(rng, claim, report),
    }
}

/// An input, or two, too great for its variable, which then has fewer than 32
/// bits; the lead cut where there is none.
fn great_input(rng: &mut Rng, claim: &Claim, report: &mut Text) {
    let widths = claim.routine.input_widths();
    let inputs: Vec<usize> = (0..widths.len())
        .filter(|&input| widths[input] < 32)
        .collect();
    if inputs.is_empty() {
        return cut(rng, claim, report);
    }
    for _ in 0..rng.within(1, 2) {
        let input = rng.pick(&inputs);
        let least = 1_u32 << widths[input];
        let word = rng.pick(&[least, least, least + 1, 1 << 31, u32::MAX]);
        let at = 2 + claim.decisions.len() + 4 * input;
        report.bytes[at..at + 4].copy_from_slice(&word.to_le_bytes());
    }
}

/// The lead cut short, often by its last byte alone or by as many as the words
/// of the leftovers take.
fn cut(rng: &mut Rng, claim: &Claim, report: &mut Text) {
    let len = claim.lead().len();
    let any = rng.below(len);
    let without = (len - in_lead(&claim.routine).len()).min(len - 1);
    report.truncate(rng.pick(&[len - 1, len - 1, without, without, any, 0]));
}

/// The words of the leftovers left out: what stands behind them follows on the
/// parameters' words. It meets any of several refusals.
fn leave_out(claim: &Claim, report: &mut Text) {
    report.bytes.drain(in_lead(&claim.routine));
}

fn out_of_range(rng: &mut Rng, claim: &Claim, report: &mut Text) {
    let accesses = claim.routine.accesses as u8;
    for _ in 0..rng.within(1, 2) {
        match rng.below(3) {
            0 => report.bytes[0] = rng.pick(&[accesses, accesses, accesses + 1, 64, 255]),
            1 => report.bytes[1] = rng.pick(&[2, 2, 3, 128, 255]),
            _ if claim.decisions.is_empty() => report.bytes[1] = 2,
            _ => {
                let decision = 2 + rng.below(claim.decisions.len());
                report.bytes[decision] = rng.pick(&[3, 3, 4, 128, 255]);
            }
        }
    }
}

/// A decision for the arm that the witness does not take, or two; another
/// witness where it comes to no if.
fn other_arm(rng: &mut Rng, claim: &Claim, report: &mut Text) {
    let run = oracle::run(&claim.bytes, &claim.witness, 32, 32).expect("an accepted list");
    let taken: Vec<(usize, Arm)> = (run.trail.iter().copied().enumerate())
        .filter(|(_, arm)| *arm != Arm::NotComeTo)
        .collect();
    if taken.is_empty() {
        return put_witness(rng, claim, report, |tried| !tried.arrives);
    }
    for _ in 0..rng.within(1, 2) {
        let (number, arm) = rng.pick(&taken);
        report.bytes[2 + number] = 1 - arm.byte();
    }
}

/// A witness that does not come to the access, or another access.
fn other_access(rng: &mut Rng, claim: &Claim, report: &mut Text) {
    if rng.chance(30) {
        report.bytes[0] = rng.below(claim.routine.accesses) as u8;
        return;
    }
    put_witness(rng, claim, report, |tried| !tried.arrives);
    if rng.chance(70) {
        decide_behind(claim, report);
    }
}

/// At every if behind the access that the witness comes to, a decision for the
/// arm that it does not take: such decisions do not matter.
fn decide_behind(claim: &Claim, report: &mut Text) {
    let lead = lead_parts(&claim.routine, &report.bytes).expect("a whole lead");
    let run = oracle::run(&claim.bytes, &lead.witness, 32, 32);
    let before = site_of(&claim.routine, usize::from(claim.access)).ifs_before;
    let trail = run.map_or(Vec::new(), |run| run.trail);
    for (number, arm) in trail.iter().enumerate().skip(before) {
        if *arm != Arm::NotComeTo {
            report.bytes[2 + number] = 1 - arm.byte();
        }
    }
}

/// The other side, a witness that is not on the side, or an access that the
/// witness came to before.
fn other_side(rng: &mut Rng, claim: &Claim, report: &mut Text) {
    match rng.below(4) {
        0 => put_witness(rng, claim, report, refutes),
        1 => report.bytes[0] = rng.below(usize::from(claim.access) + 1) as u8,
        _ => report.bytes[1] = 1 - claim.side,
    }
}

/// Another witness, from the lists for which this holds, if there are any.
fn put_witness(rng: &mut Rng, claim: &Claim, report: &mut Text, wanted: fn(&Tried) -> bool) {
    let wanted: Vec<&Tried> = claim.tried.iter().filter(|tried| wanted(tried)).collect();
    if !wanted.is_empty() {
        let lead = claim.lead_with(&rng.pick(&wanted).inputs);
        report.bytes[..lead.len()].copy_from_slice(&lead);
    }
}

/// Takes room away from one or two buffers: the last entry that the judging
/// needs before the proof, more or all.
pub fn shrink(rng: &mut Rng, refutation: &Refutation, room: &mut Room) {
    let (values, trail) = (room.values, room.trail);
    for _ in 0..rng.pick(&[1, 1, 2]) {
        // Values and trail more often: of few entries it may be that none is
        // taken away, and a routine without ifs needs no trail.
        let (len, needed) = match rng.below(13) {
            0 | 1 => (&mut room.words, refutation.given_words()),
            2 | 3 => (&mut room.starts, refutation.clauses.len()),
            4 | 5 => (&mut room.marks, refutation.variables as usize + 1),
            6..=8 => (&mut room.values, values),
            _ => (&mut room.trail, trail),
        };
        *len = match rng.below(4) {
            0 => 0,
            1 => rng.below(needed + 1),
            _ => needed.saturating_sub(1),
        };
    }
}
