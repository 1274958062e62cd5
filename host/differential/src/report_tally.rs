//! What the reports came to: a count for each refusal and shape, and how many
//! of each there must be.

use crate::claim::refutes;
use crate::compare::Verdict;
use crate::counter::Counter;
use crate::leftovers::{cleared, in_lead, leaves_something, leftovers};
use crate::report_case::{Kind, ReportCase};
use crate::truth::{lead_parts, LeadParts};
use oracle::arithmetic::Operation;
use oracle::exhaustive::{input_bits, try_every_input, Tried, MAX_INPUT_BITS};
use oracle::refusal::{BUFFER, INPUT_COUNT, INPUT_RANGE, LEAD_LENGTH, PROOF_COMMAND};
use oracle::{lead_len, Finding, Outcome, Refusal, Routine, Run, Side};
use pellet::ANSWER_LEN;
use std::fmt;

/// Something a report can come to.
#[derive(Clone, Copy, Debug, PartialEq, Eq, PartialOrd, Ord)]
pub enum Event {
    Accepted,
    Refused(u8),
    BufferRefused(usize),
    AnswerTooShort(usize),
    Shape(&'static str),
}

impl fmt::Display for Event {
    fn fmt(&self, f: &mut fmt::Formatter<'_>) -> fmt::Result {
        match *self {
            Event::Accepted => write!(f, "accepted"),
            Event::Refused(number) => write!(f, "refused {number}"),
            Event::BufferRefused(buffer) => write!(f, "refused 16, buffer {buffer}"),
            Event::AnswerTooShort(len) => write!(f, "an answer of {len}"),
            Event::Shape(name) => write!(f, "{name}"),
        }
    }
}

/// A report that was judged, as the shapes below look at it.
struct Facts<'a> {
    case: &'a ReportCase,
    /// None where it is refused.
    routine: Option<Routine>,
    finding: Option<&'a Finding>,
    refusal: Option<Refusal>,
}

impl Facts<'_> {
    fn is_accepted(&self, wanted: impl Fn(&Finding) -> bool) -> bool {
        self.finding.into_iter().any(wanted)
    }

    fn is_refused(&self, number: u8, wanted: impl Fn(usize) -> bool) -> bool {
        let mut refusals = self.refusal.iter();
        refusals.any(|refusal| refusal.number == number && wanted(refusal.place))
    }

    /// The steps closed before a refusal in the proof; none for any other.
    fn steps_before(&self) -> Option<usize> {
        let refusal = self
            .refusal
            .filter(|refusal| refusal.number >= PROOF_COMMAND)?;
        let report = self.case.report.slice();
        let mut at = lead_len(self.routine.as_ref()?);
        let mut steps = 0;
        while at < refusal.place {
            steps += usize::from(report[at] == 3);
            at += if matches!(report[at], 1 | 2) { 5 } else { 1 };
        }
        Some(steps)
    }

    /// The lead, where the routine is accepted and the lead is whole.
    fn lead(&self) -> Option<LeadParts<'_>> {
        lead_parts(self.routine.as_ref()?, self.case.report.slice())
    }

    fn has_decision(&self, wanted: impl Fn(u8) -> bool) -> bool {
        let decisions = self.lead().map_or(&[][..], |lead| lead.decisions);
        decisions.iter().any(|&decision| wanted(decision))
    }

    /// The run of these inputs, where they are accepted.
    fn run(&self, inputs: &[u32]) -> Option<Run> {
        oracle::run(self.case.routine.slice(), inputs, 32, 32).ok()
    }

    /// Whether the witness's run comes to such a division, of this operation and
    /// by zero or not.
    fn divides(&self, wanted: impl Fn(Operation, bool) -> bool) -> bool {
        let run = self.lead().and_then(|lead| self.run(&lead.witness));
        let mut events = run.iter().flat_map(|run| &run.events);
        events.any(|event| match *event {
            oracle::Event::Division { operation, by_zero } => wanted(operation, by_zero),
            _ => false,
        })
    }

    /// Whether the witness's run, gone on as far as it goes, comes to the named
    /// access, and whether it takes another arm than a decided one anywhere.
    fn whole_run(&self) -> Option<(bool, bool)> {
        let lead = self.lead()?;
        let run = self.run(&lead.witness)?;
        let access = oracle::Event::Access {
            number: usize::from(lead.access),
        };
        let mut arms = run.trail.iter().zip(lead.decisions);
        let strays = arms.any(|(arm, &decision)| arm.byte() + decision == 1);
        Some((run.events.contains(&access), strays))
    }

    /// Whether the routine is accepted and such a one.
    fn routine_is(&self, wanted: impl Fn(&Routine) -> bool) -> bool {
        self.routine.as_ref().into_iter().any(wanted)
    }

    fn has_leftovers(&self) -> bool {
        self.routine_is(|routine| !leftovers(routine).is_empty())
    }

    /// Whether the witness has another word than 0 for a leftover.
    fn leaves_something(&self) -> bool {
        let lead = self.lead();
        self.routine_is(|routine| {
            let mut leads = lead.iter();
            leads.any(|lead| leaves_something(routine, &lead.witness))
        })
    }

    /// Whether the witness does not stop as found once each leftover is 0.
    fn needs_leftovers(&self, finding: &Finding) -> bool {
        let list = |lead: LeadParts| Some(cleared(self.routine.as_ref()?, &lead.witness));
        let run = self.lead().and_then(list).and_then(|list| self.run(&list));
        let found = |outcome: Outcome| match outcome {
            Outcome::Stopped { access, side, .. } => {
                access == finding.access && side == finding.side
            }
            Outcome::Ended => false,
        };
        run.iter().any(|run| !found(run.outcome))
    }

    /// Whether the witness with other leftovers, and nothing else changed, shows
    /// that the claim is not so.
    fn refuted_by_leftovers(&self) -> bool {
        let (routine, lead) = match (&self.routine, self.lead()) {
            (Some(routine), Some(lead)) => (routine, lead),
            _ => return false,
        };
        let claim = (lead.access, lead.side, lead.decisions);
        let tried = try_every_input(self.case.routine.slice(), claim).unwrap_or_default();
        let is_like =
            |tried: &&Tried| cleared(routine, &tried.inputs) == cleared(routine, &lead.witness);
        tried.iter().filter(is_like).any(refutes)
    }

    /// Whether the report is accepted with a word 0 for each leftover put where
    /// those words belong.
    fn is_good_with_zeros(&self) -> bool {
        let words = match &self.routine {
            Some(routine) => in_lead(routine),
            None => return false,
        };
        let mut report = self.case.report.slice().to_vec();
        if words.is_empty() || report.len() < words.start {
            return false;
        }
        report.splice(words.start..words.start, vec![0; words.len()]);
        oracle::judge(self.case.routine.slice(), &report, self.case.room()).is_ok()
    }
}

/// A shape: its name, how many cases must have it, and the test for it.
type Shape = (&'static str, u64, fn(&Facts) -> bool);

const SHAPES: &[Shape] = &[
    ("accepted below", 300, |f| {
        f.is_accepted(|finding| finding.side == Side::Below)
    }),
    ("accepted above", 300, |f| {
        f.is_accepted(|finding| finding.side == Side::Above)
    }),
    ("accepted after five steps", 100, |f| {
        f.is_accepted(|finding| finding.steps >= 5)
    }),
    ("accepted at a later access", 300, |f| {
        f.is_accepted(|finding| finding.access > 0)
    }),
    ("accepted with a decided if", 300, |f| {
        f.is_accepted(|_| f.has_decision(|decision| decision < 2))
    }),
    ("accepted with a free if", 300, |f| {
        f.is_accepted(|_| f.has_decision(|decision| decision == 2))
    }),
    ("accepted on a wide routine", 100, |f| {
        f.is_accepted(|_| f.routine_is(|routine| input_bits(routine) > MAX_INPUT_BITS))
    }),
    ("accepted, and so on every input list", 1000, |f| {
        f.is_accepted(|_| f.routine_is(|routine| input_bits(routine) <= MAX_INPUT_BITS))
    }),
    ("accepted, and so whatever is left", 500, |f| {
        f.is_accepted(|_| f.has_leftovers())
    }),
    ("accepted with a leftover that is not 0", 300, |f| {
        f.is_accepted(|_| f.leaves_something())
    }),
    ("accepted by a leftover that is not 0", 100, |f| {
        f.is_accepted(|finding| f.needs_leftovers(finding))
    }),
    ("accepted past a quotient", 100, |f| {
        f.is_accepted(|_| f.divides(|operation, _| operation == Operation::Quotient))
    }),
    ("accepted past a remainder", 100, |f| {
        f.is_accepted(|_| f.divides(|operation, _| operation == Operation::Remainder))
    }),
    ("accepted past a quotient by zero", 30, |f| {
        f.is_accepted(|_| {
            f.divides(|operation, by_zero| operation == Operation::Quotient && by_zero)
        })
    }),
    ("accepted past a remainder by zero", 30, |f| {
        f.is_accepted(|_| {
            f.divides(|operation, by_zero| operation == Operation::Remainder && by_zero)
        })
    }),
    ("forged past a division by zero", 30, |f| {
        f.case.kind == Kind::Forged && f.divides(|_, by_zero| by_zero)
    }),
    ("accepted with an index below -4096", 10, |f| {
        f.is_accepted(|finding| finding.index < -4096)
    }),
    ("accepted with an index above 4096", 10, |f| {
        f.is_accepted(|finding| finding.index > 4096)
    }),
    ("accepted though damaged", 100, |f| {
        f.is_accepted(|_| f.case.kind == Kind::Damaged)
    }),
    ("good and accepted", 1000, |f| {
        f.is_accepted(|_| f.case.kind == Kind::Good)
    }),
    ("forged, and refused in the first step", 300, |f| {
        f.case.kind == Kind::Forged && f.steps_before() == Some(0)
    }),
    ("forged, and refused after a step", 100, |f| {
        f.case.kind == Kind::Forged && f.steps_before() > Some(0)
    }),
    ("good if each leftover were 0, and refused", 200, |f| {
        f.case.kind == Kind::Cleared && f.refusal.is_some()
    }),
    ("the same, and refused after a step", 20, |f| {
        f.case.kind == Kind::Cleared && f.steps_before() > Some(0)
    }),
    ("the same, and refuted by its leftovers alone", 100, |f| {
        f.case.kind == Kind::Cleared && f.refuted_by_leftovers()
    }),
    ("good but for the leftovers' words", 20, |f| {
        let is_lead = |refusal: &Refusal| refusal.number < PROOF_COMMAND;
        f.refusal.iter().any(is_lead) && f.is_good_with_zeros()
    }),
    ("refused 10, a leftover", 30, |f| {
        f.is_refused(INPUT_RANGE, |at| {
            f.routine_is(|routine| leftovers(routine).contains(&at))
        })
    }),
    ("refused 10, a read behind leftovers", 10, |f| {
        f.is_refused(INPUT_RANGE, |at| {
            f.has_leftovers() && f.routine_is(|routine| at >= leftovers(routine).end)
        })
    }),
    ("refused 11, as long as without leftovers", 15, |f| {
        f.is_refused(LEAD_LENGTH, |len| {
            let without = |routine: &Routine| lead_len(routine) - in_lead(routine).len();
            f.has_leftovers() && f.routine_is(|routine| len == without(routine))
        })
    }),
    ("refused 12, access", 30, |f| f.is_refused(12, |at| at == 0)),
    ("refused 12, side", 30, |f| f.is_refused(12, |at| at == 1)),
    ("refused 12, decision", 30, |f| {
        f.is_refused(12, |at| at >= 2)
    }),
    ("refused 13, a later if", 30, |f| {
        f.is_refused(13, |number| number > 0)
    }),
    ("refused 14, a later access", 30, |f| {
        f.is_refused(14, |access| access > 0)
    }),
    ("refused 13, missing the access too", 30, |f| {
        f.is_refused(13, |_| matches!(f.whole_run(), Some((false, _))))
    }),
    ("refused 14, with another arm behind it", 10, |f| {
        f.is_refused(14, |_| matches!(f.whole_run(), Some((_, true))))
    }),
    ("refused 15, a later access", 30, |f| {
        f.is_refused(15, |access| access > 0)
    }),
];

/// Every event that must come up, with the least number of times.
fn goals() -> Vec<(Event, u64)> {
    let mut goals = vec![(Event::Accepted, 1000)];
    goals.extend((1..=8).map(|number| (Event::Refused(number), 30)));
    goals.extend((10..=25).map(|number| (Event::Refused(number), 100)));
    goals.extend((0..5).map(|buffer| (Event::BufferRefused(buffer), 100)));
    goals.extend((0..ANSWER_LEN).map(|len| (Event::AnswerTooShort(len), 10)));
    for &(name, least, _) in SHAPES {
        goals.push((Event::Shape(name), least));
    }
    goals
}

pub struct ReportTally(Counter<Event>);

impl Default for ReportTally {
    fn default() -> Self {
        ReportTally(Counter::new(goals()))
    }
}

impl ReportTally {
    pub fn counter(&self) -> &Counter<Event> {
        &self.0
    }

    pub fn add(&mut self, case: &ReportCase, verdict: &Verdict<Finding>) {
        self.0.begin_case();
        let (finding, refusal) = match verdict {
            Verdict::Done(finding) => (Some(finding), None),
            Verdict::Refused(refusal) => (None, Some(*refusal)),
            Verdict::AnswerTooShort => {
                return self.0.hit(Event::AnswerTooShort(case.answer.len()));
            }
        };
        match refusal {
            None => self.0.hit(Event::Accepted),
            Some(refusal) => {
                assert_ne!(case.kind, Kind::Good, "refused: {refusal:?}\n{case}");
                assert_ne!(refusal.number, INPUT_COUNT, "never from judging");
                self.0.hit(Event::Refused(refusal.number));
                if refusal.number == BUFFER {
                    self.0.hit(Event::BufferRefused(refusal.place));
                }
            }
        }
        let facts = Facts {
            case,
            routine: oracle::parse(case.routine.slice()).ok(),
            finding,
            refusal,
        };
        for &(name, _, holds) in SHAPES {
            if holds(&facts) {
                self.0.hit(Event::Shape(name));
            }
        }
    }
}
