//! What the proofs came to: a count for each refusal and shape, and how many of
//! each there must be.

use crate::counter::Counter;
use crate::proof_case::ProofCase;
use crate::proof_damage::AIMS;
use crate::proof_expected::{Progress, ProofVerdict};
use oracle::refusal::{NO_ROOM, USELESS_HINT};
use pellet::ANSWER_LEN;
use std::fmt;

/// Something a proof can come to.
#[derive(Clone, Copy, Debug, PartialEq, Eq, PartialOrd, Ord)]
pub enum Event {
    Accepted,
    Refused(u8),
    NotStanding,
    AnswerTooShort(usize),
    Shape(&'static str),
}

impl fmt::Display for Event {
    fn fmt(&self, f: &mut fmt::Formatter<'_>) -> fmt::Result {
        match *self {
            Event::Accepted => write!(f, "accepted"),
            Event::Refused(number) => write!(f, "refused {number}"),
            Event::NotStanding => write!(f, "no such clauses"),
            Event::AnswerTooShort(len) => write!(f, "an answer of {len}"),
            Event::Shape(name) => write!(f, "{name}"),
        }
    }
}

/// A proof that was followed, as the shapes below look at it.
struct Facts<'a> {
    case: &'a ProofCase,
    progress: &'a Progress,
    /// The refusal's number; 0 for none.
    number: u8,
    /// The report from the command on that was refused.
    rest: &'a [u8],
    steps: usize,
}

impl Facts<'_> {
    /// The first byte of the command that was refused, where it has one.
    fn kind(&self) -> Option<u8> {
        self.rest.first().copied()
    }

    /// Whether the command that was refused is a hint of a step's clause.
    fn names_step(&self) -> bool {
        match *self.rest {
            [2, a, b, c, d, ..] => u32::from_le_bytes([a, b, c, d]) >= self.case.clauses,
            _ => false,
        }
    }
}

/// A shape: its name, how many cases must have it, and the test for it.
type Shape = (&'static str, u64, fn(&Facts) -> bool);

const SHAPES: &[Shape] = &[
    ("accepted after ten steps", 100, |f| f.steps >= 10),
    ("accepted with every start used", 300, |f| {
        f.steps > 0 && f.case.starts.len() == f.case.clauses as usize + f.steps
    }),
    ("accepted without a lead", 100, |f| {
        f.steps > 0 && f.case.from == 0
    }),
    ("accepted by hints of steps' clauses", 1000, |f| {
        f.steps > 0 && f.progress.cited > 0
    }),
    ("refused in the first step", 1000, |f| {
        f.number > 0 && f.progress.closed == 0
    }),
    ("refused after a step", 1000, |f| {
        f.number > 0 && f.progress.closed > 0
    }),
    ("refused after ten steps", 100, |f| {
        f.number > 0 && f.progress.closed >= 10
    }),
    ("refused with literals in the open step", 1000, |f| {
        f.progress.open > 0
    }),
    ("refused with both marks set", 1000, |f| {
        f.progress.made_true > 0 && f.progress.made_false > 0
    }),
    ("refused between two steps", 300, |f| {
        let decided = f.progress.made_true + f.progress.made_false;
        f.number > 0 && f.progress.closed > 0 && decided == 0
    }),
    ("refused after hints of steps' clauses", 1000, |f| {
        f.number > 0 && f.progress.cited > 0
    }),
    ("refused for what a step's clause says", 50, |f| {
        f.number == USELESS_HINT && f.names_step()
    }),
    ("no room at a literal", 100, |f| {
        f.number == NO_ROOM && f.kind() == Some(1)
    }),
    ("no room in the words at a close", 50, |f| {
        let has_start = f.case.starts.len() > f.case.clauses as usize + f.progress.closed;
        f.number == NO_ROOM && f.kind() == Some(3) && has_start
    }),
    ("no room in the starts at a close", 50, |f| {
        let has_start = f.case.starts.len() > f.case.clauses as usize + f.progress.closed;
        f.number == NO_ROOM && f.kind() == Some(3) && !has_start
    }),
];

/// Every event that must come up, with the least number of times.
fn goals() -> Vec<(Event, u64)> {
    let mut goals = vec![(Event::Accepted, 1000)];
    goals.extend(AIMS.map(|number| (Event::Refused(number as u8), 300)));
    goals.push((Event::NotStanding, 300));
    goals.extend((0..ANSWER_LEN).map(|len| (Event::AnswerTooShort(len), 20)));
    for &(name, least, _) in SHAPES {
        goals.push((Event::Shape(name), least));
    }
    goals
}

pub struct ProofTally(Counter<Event>);

impl Default for ProofTally {
    fn default() -> Self {
        ProofTally(Counter::new(goals()))
    }
}

impl ProofTally {
    pub fn counter(&self) -> &Counter<Event> {
        &self.0
    }

    pub fn add(&mut self, case: &ProofCase, (verdict, progress): &(ProofVerdict, Progress)) {
        self.0.begin_case();
        let (event, number, place, steps) = match verdict {
            ProofVerdict::Done(totals) => (Event::Accepted, 0, None, totals.steps),
            ProofVerdict::Refused(refusal) => {
                let event = Event::Refused(refusal.number);
                (event, refusal.number, Some(refusal.place), 0)
            }
            ProofVerdict::NotStanding => return self.0.hit(Event::NotStanding),
            ProofVerdict::AnswerTooShort => {
                return self.0.hit(Event::AnswerTooShort(case.answer.len()));
            }
        };
        self.0.hit(event);
        let facts = Facts {
            case,
            progress,
            number,
            rest: place.map_or(&[], |place| &case.report.slice()[place..]),
            steps,
        };
        for &(name, _, holds) in SHAPES {
            if holds(&facts) {
                self.0.hit(Event::Shape(name));
            }
        }
    }
}
