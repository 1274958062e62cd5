//! What the pairs of reports came to, and how many of each there must be.

use crate::alike_case::AlikeCase;
use crate::compare::Verdict;
use crate::counter::Counter;
use crate::leftovers::{in_lead, leftovers};
use oracle::refusal::{LEAD_LENGTH, LEAD_RANGE};
use oracle::{lead_len, Refusal};
use pellet::ANSWER_LEN;
use std::fmt;

/// Something a pair of reports can come to.
#[derive(Clone, Copy, Debug, PartialEq, Eq, PartialOrd, Ord)]
pub enum Event {
    Alike,
    NotAlike,
    RoutineRefused(u8),
    FirstRefused(u8),
    SecondRefused(u8),
    /// The first for this, and the second would be for that.
    BothRefused(u8, u8),
    /// One is just as long as its lead would be without leftovers.
    WithoutLeftovers,
    AnswerTooShort(usize),
}

impl fmt::Display for Event {
    fn fmt(&self, f: &mut fmt::Formatter<'_>) -> fmt::Result {
        match *self {
            Event::Alike => write!(f, "alike"),
            Event::NotAlike => write!(f, "not alike"),
            Event::RoutineRefused(number) => write!(f, "routine refused {number}"),
            Event::FirstRefused(number) => write!(f, "first refused {number}"),
            Event::SecondRefused(number) => write!(f, "second refused {number}"),
            Event::BothRefused(first, second) => {
                write!(f, "first refused {first}, the second too: {second}")
            }
            Event::WithoutLeftovers => write!(f, "refused 11, as long as without leftovers"),
            Event::AnswerTooShort(len) => write!(f, "an answer of {len}"),
        }
    }
}

/// Every event that must come up, with the least number of times.
fn goals() -> Vec<(Event, u64)> {
    let mut goals = vec![(Event::Alike, 300), (Event::NotAlike, 300)];
    goals.extend((1..=8).map(|number| (Event::RoutineRefused(number), 10)));
    for number in [LEAD_LENGTH, LEAD_RANGE] {
        goals.push((Event::FirstRefused(number), 100));
        goals.push((Event::SecondRefused(number), 100));
        goals.push((Event::BothRefused(number, LEAD_LENGTH), 5));
        goals.push((Event::BothRefused(number, LEAD_RANGE), 5));
    }
    goals.push((Event::WithoutLeftovers, 50));
    goals.extend((0..ANSWER_LEN).map(|len| (Event::AnswerTooShort(len), 5)));
    goals
}

pub struct AlikeTally(Counter<Event>);

impl Default for AlikeTally {
    fn default() -> Self {
        AlikeTally(Counter::new(goals()))
    }
}

impl AlikeTally {
    pub fn counter(&self) -> &Counter<Event> {
        &self.0
    }

    pub fn add(&mut self, case: &AlikeCase, verdict: &Verdict<bool>) {
        self.0.begin_case();
        self.0.hit(match *verdict {
            Verdict::Done(true) => Event::Alike,
            Verdict::Done(false) => Event::NotAlike,
            Verdict::Refused(refusal) => refused(case, refusal.number),
            Verdict::AnswerTooShort => Event::AnswerTooShort(case.answer.len()),
        });
        if matches!(verdict, Verdict::Refused(refusal) if is_without_leftovers(case, refusal)) {
            self.0.hit(Event::WithoutLeftovers);
        }
    }
}

/// Whether a lead is cut short by just the words of the leftovers.
fn is_without_leftovers(case: &AlikeCase, refusal: &Refusal) -> bool {
    let len = match oracle::parse(case.routine.slice()) {
        Ok(routine) if !leftovers(&routine).is_empty() => {
            lead_len(&routine) - in_lead(&routine).len()
        }
        _ => return false,
    };
    (refusal.number, refusal.place) == (LEAD_LENGTH, len)
}

/// Whose refusal it is: a report that is refused is so beside itself, too.
fn refused(case: &AlikeCase, number: u8) -> Event {
    let alone = |report: &[u8]| oracle::alike(case.routine.slice(), report, report);
    match (alone(case.first.slice()), alone(case.second.slice())) {
        _ if number < LEAD_LENGTH => Event::RoutineRefused(number),
        (Ok(_), _) => Event::SecondRefused(number),
        (Err(_), Ok(_)) => Event::FirstRefused(number),
        (Err(_), Err(second)) => Event::BothRefused(number, second.number),
    }
}
