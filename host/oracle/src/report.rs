//! The judging of a whole report: its lead, its witness, the room lent, and
//! its proof, in this order.

use crate::clauses::Clauses;
use crate::lead::{read_lead, Lead};
use crate::proof::check_proof;
use crate::refusal::{Refusal, BUFFER, MARKS_BUFFER, NOT_COME_TO, NOT_ON_SIDE, OTHER_WAY};
use crate::routine::{parse, Routine};
use crate::run::{carry_out, check_buffers, check_inputs, Event, Outcome, Side};
use crate::site::{site_of, Site};
use crate::translation::{measure, translate, MAX_ENTRIES};

/// How many entries of each buffer are lent. They decide only whether the
/// report is refused.
#[derive(Clone, Copy, Debug, PartialEq, Eq)]
pub struct Room {
    pub words: usize,
    pub starts: usize,
    pub marks: usize,
    pub values: usize,
    pub trail: usize,
}

/// What an accepted report has found: every run that goes its way and comes to
/// the access has an index there on this side, and the witness is such a run.
#[derive(Clone, Copy, Debug, PartialEq, Eq)]
pub struct Finding {
    pub access: usize,
    pub side: Side,
    pub array: usize,
    pub size: u32,
    /// The witness's index.
    pub index: i64,
    /// Steps closed.
    pub steps: usize,
    /// Hints read.
    pub hints: usize,
}

/// Judges a report: 1 to 8, then 11, 12 and 10, then what the witness's run
/// comes to (13 or 14, then 15), then 16, then the proof.
pub fn judge(bytes: &[u8], report: &[u8], room: Room) -> Result<Finding, Refusal> {
    let routine = parse(bytes)?;
    let lead = read_lead(&routine, report)?;
    // The lead has as many inputs as the routine wants, so this is never 9.
    check_inputs(&routine, &lead.witness)?;
    let site = site_of(&routine, lead.named.access);
    let index = witnessed(&routine, &lead, site)?;

    let (access, side, decisions) = (lead.access, lead.side, lead.decisions);
    let translation = measure(bytes, access, side, decisions)?;
    translation.fit(room.words, room.starts)?;
    // The marks need one entry for each variable and one more.
    if translation.variables >= room.marks.min(MAX_ENTRIES) {
        return Err(Refusal::new(BUFFER, MARKS_BUFFER));
    }
    check_buffers(&routine, room.values, room.trail)?;

    let mut clauses = Clauses::default();
    translate(bytes, access, side, decisions, &mut clauses)?;
    let (clauses, variables) = (clauses.numbers(), translation.variables as u32);
    let (words, starts) = (room.words, room.starts);
    let totals = check_proof(report, lead.len, &clauses, variables, words, starts)?;
    Ok(Finding {
        access: lead.named.access,
        side: lead.named.side,
        array: site.array,
        size: site.size,
        index,
        steps: totals.steps,
        hints: totals.hints,
    })
}

/// The witness's index at the named access. Ifs that stand behind the access
/// in the text do not matter, also where the run passes the access by.
fn witnessed(routine: &Routine, lead: &Lead, site: Site) -> Result<i64, Refusal> {
    let named = &lead.named;
    let run = carry_out(routine, &lead.witness);
    for event in &run.events {
        match *event {
            Event::If { number, arm } => {
                if number < site.ifs_before && !named.decisions[number].allows(arm) {
                    return Err(Refusal::new(OTHER_WAY, number));
                }
            }
            Event::Access { number } if number == named.access => {
                return match run.outcome {
                    Outcome::Stopped {
                        access,
                        side,
                        index,
                    } if (access, side) == (named.access, named.side) => Ok(index),
                    _ => Err(Refusal::new(NOT_ON_SIDE, named.access)),
                };
            }
            Event::Access { .. } | Event::Division { .. } => {}
        }
    }
    Err(Refusal::new(NOT_COME_TO, named.access))
}
