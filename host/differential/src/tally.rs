//! What the cases came to: a count for each refusal, outcome and shape, and
//! how many of each there must be.

use crate::case::Case;
use crate::compare::{Verdict, Verdicts};
use crate::counter::Counter;
use crate::leftovers::{cleared, leftovers, words_without};
use crate::run_shapes::{Facts, ROUTINE_SHAPES, RUN_SHAPES};
use crate::survey::Survey;
use oracle::arithmetic::Operation;
use oracle::refusal::{BUFFER, COMMAND, INPUT_COUNT, INPUT_RANGE};
use oracle::refusal::{RANGE, TRAIL_BUFFER, VALUES_BUFFER, WIDTHS};
use oracle::{Arm, Outcome, Refusal, Routine, Run, Side};
use pellet::ANSWER_LEN;
use std::fmt;

const QUOTIENT: u8 = 0x0E;
const REMAINDER: u8 = 0x0F;
const FIRST_UNKNOWN: u8 = 0x10;

const NO_INPUTS: &str = "no inputs at all";
const WITHOUT_LEFTOVERS: &str = "as many as parameters and reads";

const PARAMETER: &str = "parameter";
const LEFTOVER: &str = "leftover";
const READ: &str = "read behind parameters alone";
const READ_BEHIND: &str = "read behind leftovers";
const INPUTS: [&str; 4] = [PARAMETER, LEFTOVER, READ, READ_BEHIND];

/// Something a case can come to.
#[derive(Clone, Copy, Debug, PartialEq, Eq, PartialOrd, Ord)]
pub enum Event {
    CheckRefused(u8),
    RunRefused(u8),
    /// The bytes ran out where a command was to stand.
    RanOut,
    /// Refused at the command of this byte.
    RefusedAt(u8, u8),
    /// A list of no inputs, or of just those for the parameters and the reads
    /// where there are other variables.
    WrongCount(&'static str),
    /// The first input that is too great is one of these.
    TooGreat(&'static str),
    BufferRefused(usize),
    /// That buffer has no entries at all.
    EmptyBufferRefused(usize),
    CheckAnswerTooShort(usize),
    RunAnswerTooShort(usize),
    Accepted,
    Ended,
    StoppedBelow,
    StoppedAbove,
    /// An if with the relation of this number led into its first arm.
    LedIntoFirst(usize),
    /// Or into its else.
    LedIntoElse(usize),
    /// A run came to a quotient or remainder, by zero or not.
    Divided(&'static str, bool),
    Shape(&'static str),
}

impl fmt::Display for Event {
    fn fmt(&self, f: &mut fmt::Formatter<'_>) -> fmt::Result {
        match *self {
            Event::CheckRefused(number) => write!(f, "check refused {number}"),
            Event::RunRefused(number) => write!(f, "run refused {number}"),
            Event::RanOut => write!(f, "refused 3 at the length"),
            Event::RefusedAt(number, code) => write!(f, "refused {number} at a {code:#04X}"),
            Event::WrongCount(what) => write!(f, "run refused 9, {what}"),
            Event::TooGreat(what) => write!(f, "run refused 10, a {what}"),
            Event::BufferRefused(buffer) => write!(f, "run refused 16, buffer {buffer}"),
            Event::EmptyBufferRefused(buffer) => {
                write!(f, "run refused 16, buffer {buffer} of no entries")
            }
            Event::CheckAnswerTooShort(len) => write!(f, "check with an answer of {len}"),
            Event::RunAnswerTooShort(len) => write!(f, "run with an answer of {len}"),
            Event::Accepted => write!(f, "check accepted"),
            Event::Ended => write!(f, "run ended"),
            Event::StoppedBelow => write!(f, "run stopped below"),
            Event::StoppedAbove => write!(f, "run stopped above"),
            Event::LedIntoFirst(relation) => {
                write!(f, "relation {relation} led into the first arm")
            }
            Event::LedIntoElse(relation) => write!(f, "relation {relation} led into the else"),
            Event::Divided(what, true) => write!(f, "run takes a {what} by zero"),
            Event::Divided(what, false) => write!(f, "run takes a {what} by another number"),
            Event::Shape(name) => write!(f, "{name}"),
        }
    }
}

/// Every event that must come up, with the least number of times. They lie
/// well below what the fixed seed gives, and far above chance.
fn goals() -> Vec<(Event, u64)> {
    let mut goals = Vec::new();
    goals.extend((1..=8).map(|number| (Event::CheckRefused(number), 5000)));
    goals.extend((1..=10).map(|number| (Event::RunRefused(number), 3000)));
    goals.push((Event::RanOut, 2000));
    for code in [QUOTIENT, REMAINDER] {
        let numbers = [COMMAND, RANGE, WIDTHS];
        goals.extend(numbers.map(|number| (Event::RefusedAt(number, code), 200)));
    }
    goals.push((Event::RefusedAt(COMMAND, FIRST_UNKNOWN), 500));
    goals.push((Event::WrongCount(NO_INPUTS), 500));
    goals.push((Event::WrongCount(WITHOUT_LEFTOVERS), 1000));
    goals.extend(INPUTS.map(|what| (Event::TooGreat(what), 500)));
    goals.push((Event::RunRefused(BUFFER), 10_000));
    goals.push((Event::BufferRefused(VALUES_BUFFER), 5000));
    goals.push((Event::BufferRefused(TRAIL_BUFFER), 5000));
    goals.push((Event::EmptyBufferRefused(VALUES_BUFFER), 2000));
    goals.push((Event::EmptyBufferRefused(TRAIL_BUFFER), 2000));
    goals.extend((0..ANSWER_LEN).map(|len| (Event::CheckAnswerTooShort(len), 500)));
    goals.extend((0..ANSWER_LEN).map(|len| (Event::RunAnswerTooShort(len), 500)));
    goals.push((Event::Accepted, 50_000));
    goals.push((Event::Ended, 20_000));
    goals.push((Event::StoppedBelow, 5000));
    goals.push((Event::StoppedAbove, 5000));
    goals.extend((0..10).map(|relation| (Event::LedIntoFirst(relation), 2000)));
    goals.extend((0..10).map(|relation| (Event::LedIntoElse(relation), 2000)));
    for what in ["quotient", "remainder"] {
        goals.extend([true, false].map(|by_zero| (Event::Divided(what, by_zero), 5000)));
    }
    for &(name, least, _) in ROUTINE_SHAPES.iter().chain(RUN_SHAPES) {
        goals.push((Event::Shape(name), least));
    }
    goals
}

pub struct Tally(Counter<Event>);

impl Default for Tally {
    fn default() -> Self {
        Tally(Counter::new(goals()))
    }
}

impl Tally {
    pub fn counter(&self) -> &Counter<Event> {
        &self.0
    }

    pub fn add(&mut self, case: &Case, verdicts: &Verdicts) {
        self.0.begin_case();
        match &verdicts.check {
            Verdict::Done(_) => self.hit(Event::Accepted),
            Verdict::Refused(refusal) => self.check_refused(case, refusal),
            Verdict::AnswerTooShort => {
                self.hit(Event::CheckAnswerTooShort(case.check_answer.len()));
            }
        }
        match &verdicts.run {
            Verdict::Done(run) => self.carried_out(case, run),
            Verdict::Refused(refusal) => self.run_refused(case, refusal),
            Verdict::AnswerTooShort => self.hit(Event::RunAnswerTooShort(case.run_answer.len())),
        }
    }

    fn hit(&mut self, event: Event) {
        self.0.hit(event);
    }

    fn check_refused(&mut self, case: &Case, refusal: &Refusal) {
        self.hit(Event::CheckRefused(refusal.number));
        match case.routine.slice().get(refusal.place) {
            None if refusal.number == COMMAND => self.hit(Event::RanOut),
            Some(&code) if (COMMAND..=WIDTHS).contains(&refusal.number) => {
                self.hit(Event::RefusedAt(refusal.number, code));
            }
            _ => {}
        }
    }

    fn run_refused(&mut self, case: &Case, refusal: &Refusal) {
        self.hit(Event::RunRefused(refusal.number));
        match refusal.number {
            INPUT_COUNT => self.wrong_count(case, refusal.place),
            INPUT_RANGE => self.too_great(case, refusal.place),
            BUFFER => self.buffer_refused(case, refusal.place),
            _ => {}
        }
    }

    fn wrong_count(&mut self, case: &Case, count: usize) {
        if count == 0 {
            self.hit(Event::WrongCount(NO_INPUTS));
        }
        let routine = run_routine(case);
        if count == words_without(&routine) && !leftovers(&routine).is_empty() {
            self.hit(Event::WrongCount(WITHOUT_LEFTOVERS));
        }
    }

    fn too_great(&mut self, case: &Case, input: usize) {
        let routine = run_routine(case);
        let leftovers = leftovers(&routine);
        self.hit(Event::TooGreat(match input {
            _ if input < leftovers.start => PARAMETER,
            _ if input < leftovers.end => LEFTOVER,
            _ if leftovers.is_empty() => READ,
            _ => READ_BEHIND,
        }));
    }

    fn buffer_refused(&mut self, case: &Case, buffer: usize) {
        self.hit(Event::BufferRefused(buffer));
        let is_empty = match buffer {
            VALUES_BUFFER => case.values.is_empty(),
            _ => case.trail.is_empty(),
        };
        if is_empty {
            self.hit(Event::EmptyBufferRefused(buffer));
        }
    }

    fn carried_out(&mut self, case: &Case, run: &Run) {
        let routine = run_routine(case);
        let survey = Survey::of(&routine);
        let stop = match run.outcome {
            Outcome::Ended => None,
            Outcome::Stopped { access, .. } => Some(&survey.accesses[access]),
        };
        self.hit(match run.outcome {
            Outcome::Ended => Event::Ended,
            Outcome::Stopped {
                side: Side::Below, ..
            } => Event::StoppedBelow,
            Outcome::Stopped {
                side: Side::Above, ..
            } => Event::StoppedAbove,
        });
        let facts = Facts {
            case,
            routine: &routine,
            counts: routine.counts(),
            survey: &survey,
            run,
            cleared: cleared_run(case, &routine),
            stop,
        };
        for &(name, _, holds) in ROUTINE_SHAPES.iter().chain(RUN_SHAPES) {
            if holds(&facts) {
                self.hit(Event::Shape(name));
            }
        }
        self.decisions(&survey, run);
        self.divisions(run);
    }

    fn divisions(&mut self, run: &Run) {
        for event in &run.events {
            match *event {
                oracle::Event::Division {
                    operation: Operation::Quotient,
                    by_zero,
                } => self.hit(Event::Divided("quotient", by_zero)),
                oracle::Event::Division { by_zero, .. } => {
                    self.hit(Event::Divided("remainder", by_zero));
                }
                _ => {}
            }
        }
    }

    fn decisions(&mut self, survey: &Survey, run: &Run) {
        for (site, &arm) in survey.ifs.iter().zip(&run.trail) {
            let relation = site.relation as usize;
            match arm {
                Arm::First => self.hit(Event::LedIntoFirst(relation)),
                Arm::Else => self.hit(Event::LedIntoElse(relation)),
                Arm::NotComeTo => {}
            }
        }
    }
}

/// The routine of a case that passed 1 to 8.
fn run_routine(case: &Case) -> Routine {
    oracle::parse(case.routine.slice()).expect("a routine that is run")
}

/// The run of an accepted list with 0 for each leftover.
fn cleared_run(case: &Case, routine: &Routine) -> Run {
    let inputs = cleared(routine, case.inputs.slice());
    oracle::run(case.routine.slice(), &inputs, 32, 32).expect("an accepted list")
}
