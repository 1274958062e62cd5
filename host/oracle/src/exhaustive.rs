//! Every accepted input list of a routine: what a claim comes to on it, and the
//! check of a translation against the run:
//! the clauses before the last two leave one assignment that extends the list,
//! its arrival literal is true exactly where the run comes to the named access
//! by the decisions, and its side literal then exactly where the index lies on
//! the named side.

use crate::clauses::{Clauses, Literal};
use crate::propagation::{propagate, Assignment};
use crate::routine::{parse, Routine};
use crate::run::{carry_out, Event, Outcome, Run};
use crate::translation::{Named, Translation};

/// The most input bits that are gone through.
pub const MAX_INPUT_BITS: u32 = 10;

/// What the input lists came to.
#[derive(Clone, Copy, Debug, Default, PartialEq, Eq)]
pub struct Lists {
    pub all: usize,
    /// The run comes to the named access by the decisions.
    pub arriving: usize,
    /// And its index lies on the named side.
    pub on_side: usize,
    /// The run divides by zero on its way to the named access.
    pub past_zero: usize,
}

/// What one input list says about a claim.
#[derive(Clone, Debug, PartialEq, Eq)]
pub struct Tried {
    pub inputs: Vec<u32>,
    /// The run comes to the named access by the decisions.
    pub arrives: bool,
    /// And its index lies on the named side.
    pub is_on_side: bool,
}

/// Tries a claim on every accepted input list, by the run alone: it holds
/// where every list that arrives is on the side.
pub fn try_every_input(
    bytes: &[u8],
    (access, side, decisions): (u8, u8, &[u8]),
) -> Result<Vec<Tried>, String> {
    let refused = |refusal| format!("refused: {refusal:?}");
    let routine = parse(bytes).map_err(refused)?;
    let named = Named::new(&routine, access, side, decisions).map_err(refused)?;
    let tried = every_list(&routine)?.map(|inputs| {
        let (arrives, is_on_side) = meaning(&carry_out(&routine, &inputs), &named);
        Tried {
            inputs,
            arrives,
            is_on_side,
        }
    });
    Ok(tried.collect())
}

/// How many bits the input words of a routine have together.
pub fn input_bits(routine: &Routine) -> u32 {
    routine.input_widths().iter().sum()
}

/// Checks clauses, wherever they come from, on every accepted input list. The
/// translation tells only where the input bits are and how many variables
/// there are; the two literals are those of the last two clauses.
pub fn check_every_input(
    bytes: &[u8],
    (access, side, decisions): (u8, u8, &[u8]),
    translation: &Translation,
    clauses: &Clauses,
) -> Result<Lists, String> {
    let refused = |refusal| format!("refused: {refusal:?}");
    let routine = parse(bytes).map_err(refused)?;
    let named = Named::new(&routine, access, side, decisions).map_err(refused)?;
    let (arrival, on_side) = last_two(clauses)?;
    let mut lists = Lists::default();
    for inputs in every_list(&routine)? {
        let run = carry_out(&routine, &inputs);
        let assignment = extend(translation, clauses, &inputs)
            .map_err(|problem| format!("inputs {inputs:?}: {problem}"))?;
        let expected = meaning(&run, &named);
        let arrives = assignment.value(arrival) == Some(true);
        let found = (arrives, arrives && assignment.value(on_side) == Some(true));
        if found != expected {
            return Err(format!(
                "inputs {inputs:?}: arrival and side are {found:?}, the run's are {expected:?}"
            ));
        }
        lists.all += 1;
        lists.arriving += usize::from(expected.0);
        lists.on_side += usize::from(expected.1);
        lists.past_zero += usize::from(expected.0 && divides_by_zero(&run, &named));
    }
    Ok(lists)
}

/// The arrival and the side literal, from the last two clauses.
fn last_two(clauses: &Clauses) -> Result<(Literal, Literal), String> {
    let count = clauses.len();
    if count < 2 {
        return Err(format!("only {count} clauses"));
    }
    match (clauses.get(count - 2), clauses.get(count - 1)) {
        (&[arrival], &[opposite]) => Ok((arrival, -opposite)),
        last => Err(format!("the last two clauses are {last:?}")),
    }
}

/// Every accepted input list, where they are not too many.
fn every_list(routine: &Routine) -> Result<impl Iterator<Item = Vec<u32>> + '_, String> {
    let bits = input_bits(routine);
    if bits > MAX_INPUT_BITS {
        return Err(format!("{bits} input bits"));
    }
    Ok((0..1_u64 << bits).map(|number| nth_list(routine, number)))
}

/// The input list of this number: its bits are dealt out to the words.
fn nth_list(routine: &Routine, mut number: u64) -> Vec<u32> {
    let mut words = Vec::new();
    for width in routine.input_widths() {
        words.push((number % (1 << width)) as u32);
        number >>= width;
    }
    words
}

/// The assignment that unit propagation finds from the input bits. It decides
/// every variable, so no other one extends the list.
fn extend(
    translation: &Translation,
    clauses: &Clauses,
    inputs: &[u32],
) -> Result<Assignment, String> {
    let mut assignment = translation.assignment(inputs);
    let first = clauses.first(clauses.len() - 2);
    propagate(first, &mut assignment).map_err(|number| format!("conflict in clause {number}"))?;
    match assignment.first_undecided() {
        None => Ok(assignment),
        Some(variable) => Err(format!("variable {variable} is not decided")),
    }
}

/// Whether a run divides by zero before it comes to the named access.
fn divides_by_zero(run: &Run, named: &Named) -> bool {
    let by_zero = |event: &Event| matches!(event, Event::Division { by_zero: true, .. });
    run.events
        .iter()
        .take_while(|&&event| event != named.come_to())
        .any(by_zero)
}

/// Whether a run comes to the named access by the decisions, and whether its
/// index then lies on the named side.
fn meaning(run: &Run, named: &Named) -> (bool, bool) {
    let come_to = named.come_to();
    let before = match run.events.iter().position(|&event| event == come_to) {
        None => return (false, false),
        Some(position) => &run.events[..position],
    };
    let by_the_decisions = before.iter().all(|event| match *event {
        Event::If { number, arm } => named.decisions[number].allows(arm),
        Event::Access { .. } | Event::Division { .. } => true,
    });
    let on_side = match run.outcome {
        Outcome::Stopped { access, side, .. } => access == named.access && side == named.side,
        Outcome::Ended => false,
    };
    (by_the_decisions, by_the_decisions && on_side)
}
