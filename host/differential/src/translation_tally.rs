//! What the translations came to: a count for each refusal and shape, and how
//! many of each there must be.

use crate::compare::Verdict;
use crate::counter::Counter;
use crate::leftovers::leftovers;
use crate::survey::{AccessSite, DivisionSite, Survey};
use crate::translation_case::TranslationCase;
use oracle::arithmetic::Operation;
use oracle::refusal::{BUFFER, LEAD_LENGTH, LEAD_RANGE, STARTS_BUFFER, WORDS_BUFFER};
use oracle::{Literal, Refusal, Routine, Translation};
use pellet::ANSWER_LEN;
use std::fmt;

/// Something a translation can come to.
#[derive(Clone, Copy, Debug, PartialEq, Eq, PartialOrd, Ord)]
pub enum Event {
    Refused(u8),
    OutOfRange(&'static str),
    BufferRefused(usize),
    OneEntryShort(usize),
    AnswerTooShort(usize),
    Translated,
    Shape(&'static str),
}

impl fmt::Display for Event {
    fn fmt(&self, f: &mut fmt::Formatter<'_>) -> fmt::Result {
        match *self {
            Event::Refused(number) => write!(f, "refused {number}"),
            Event::OutOfRange(what) => write!(f, "refused 12 for the {what}"),
            Event::BufferRefused(buffer) => write!(f, "refused 16, buffer {buffer}"),
            Event::OneEntryShort(buffer) => write!(f, "buffer {buffer} one entry short"),
            Event::AnswerTooShort(len) => write!(f, "an answer of {len}"),
            Event::Translated => write!(f, "translated"),
            Event::Shape(name) => write!(f, "{name}"),
        }
    }
}

/// A translation and its routine, as the shapes below look at it.
struct Facts<'a> {
    case: &'a TranslationCase,
    routine: &'a Routine,
    survey: &'a Survey,
    translation: &'a Translation,
    named: &'a AccessSite,
}

impl Facts<'_> {
    fn decides(&self, decision: u8) -> bool {
        self.case.decisions.slice().contains(&decision)
    }

    /// The greatest positive number that the named index can be.
    fn greatest(&self) -> u64 {
        (1 << (self.named.index_width - 1)) - 1
    }

    fn names_above(&self) -> bool {
        self.case.side == 1
    }

    /// Whether such a division stands before the named access.
    fn divides(&self, wanted: impl Fn(&DivisionSite) -> bool) -> bool {
        let access = usize::from(self.case.access);
        let mut sites = self.survey.divisions.iter();
        sites.any(|site| site.accesses_before <= access && wanted(site))
    }

    fn has_leftovers(&self) -> bool {
        !leftovers(self.routine).is_empty()
    }

    /// Whether this is the top bit of what a leftover begins with.
    fn is_left(&self, literal: Literal) -> bool {
        let mut bits = self.translation.inputs[leftovers(self.routine)].iter();
        bits.any(|bits| bits.last().map(|&top| 2 * top) == Some(literal.0))
    }

    /// How many reads stand before the named access.
    fn reads(&self) -> usize {
        let reads = &self.translation.inputs[self.routine.header.widths.len()..];
        reads.iter().filter(|bits| !bits.is_empty()).count()
    }
}

/// A shape: its name, how many cases must have it, and the test for it.
type Shape = (&'static str, u64, fn(&Facts) -> bool);

const SHAPES: &[Shape] = &[
    ("words and starts just enough", 500, |f| {
        f.case.words.len() == f.translation.words && f.case.starts.len() == f.translation.clauses
    }),
    ("words more than needed", 500, |f| {
        f.case.words.len() > f.translation.words
    }),
    ("starts more than needed", 500, |f| {
        f.case.starts.len() > f.translation.clauses
    }),
    ("depth 8", 200, |f| f.survey.depth() == 8),
    ("32 ifs", 100, |f| f.survey.ifs.len() == 32),
    ("64 accesses", 50, |f| f.survey.accesses.len() == 64),
    ("reads in both arms", 300, |f| {
        f.survey.ifs.iter().any(|site| site.reads_in_both_arms)
    }),
    ("ten reads translated", 100, |f| f.reads() >= 10),
    ("leftovers translated", 1000, |f| f.has_leftovers()),
    ("only leftovers translated", 300, |f| {
        f.routine.header.parameters == 0
    }),
    ("a read translated behind leftovers", 500, |f| {
        f.has_leftovers() && f.reads() > 0
    }),
    ("a side that is the top bit left", 30, |f| {
        f.is_left(f.translation.side)
    }),
    ("a quotient translated", 500, |f| {
        f.divides(|site| site.operation == Operation::Quotient)
    }),
    ("a remainder translated", 500, |f| {
        f.divides(|site| site.operation == Operation::Remainder)
    }),
    ("a division translated of which d is s", 300, |f| {
        f.divides(|site| site.d == site.s && site.s != site.t)
    }),
    ("a division translated of which d is t", 300, |f| {
        f.divides(|site| site.d == site.t && site.s != site.t)
    }),
    ("a division translated of which s is t", 300, |f| {
        f.divides(|site| site.s == site.t)
    }),
    ("a first arm decided", 500, |f| f.decides(0)),
    ("an else decided", 500, |f| f.decides(1)),
    ("a free if", 500, |f| f.decides(2)),
    ("a width of 1", 300, |f| {
        f.routine.header.widths.contains(&1)
    }),
    ("a width of 32", 300, |f| {
        f.routine.header.widths.contains(&32)
    }),
    ("access named outside all ifs", 300, |f| f.named.depth == 0),
    ("access named inside an arm", 300, |f| f.named.depth > 0),
    ("access named at depth 8", 20, |f| f.named.depth == 8),
    ("a read named", 300, |f| f.named.is_read),
    ("a write named", 300, |f| !f.named.is_read),
    ("below named", 500, |f| f.case.side == 0),
    ("above named", 500, |f| f.names_above()),
    ("above named at the greatest size within reach", 100, |f| {
        f.names_above() && u64::from(f.named.size) == f.greatest()
    }),
    ("above named at the first size out of reach", 100, |f| {
        f.names_above() && u64::from(f.named.size) == f.greatest() + 1
    }),
    ("arrival false without a gate", 20, |f| {
        f.translation.arrival == Literal::FALSE
    }),
    ("over 100,000 words", 100, |f| f.translation.words > 100_000),
    ("over 1,000,000 words", 10, |f| {
        f.translation.words > 1_000_000
    }),
];

/// Every event that must come up, with the least number of times.
fn goals() -> Vec<(Event, u64)> {
    let mut goals = Vec::new();
    goals.extend((1..=8).map(|number| (Event::Refused(number), 30)));
    goals.push((Event::Refused(LEAD_LENGTH), 100));
    goals.push((Event::Refused(LEAD_RANGE), 100));
    goals.extend(["access", "side", "decision"].map(|what| (Event::OutOfRange(what), 50)));
    goals.extend([WORDS_BUFFER, STARTS_BUFFER].map(|buffer| (Event::BufferRefused(buffer), 100)));
    goals.extend([WORDS_BUFFER, STARTS_BUFFER].map(|buffer| (Event::OneEntryShort(buffer), 50)));
    goals.extend((0..ANSWER_LEN).map(|len| (Event::AnswerTooShort(len), 5)));
    goals.push((Event::Translated, 2000));
    for &(name, least, _) in SHAPES {
        goals.push((Event::Shape(name), least));
    }
    goals
}

pub struct TranslationTally(Counter<Event>);

impl Default for TranslationTally {
    fn default() -> Self {
        TranslationTally(Counter::new(goals()))
    }
}

impl TranslationTally {
    pub fn counter(&self) -> &Counter<Event> {
        &self.0
    }

    pub fn add(&mut self, case: &TranslationCase, verdict: &Verdict<Translation>) {
        self.0.begin_case();
        match verdict {
            Verdict::Done(translation) => self.translated(case, translation),
            Verdict::Refused(refusal) => self.refused(case, refusal),
            Verdict::AnswerTooShort => self.hit(Event::AnswerTooShort(case.answer.len())),
        }
    }

    fn hit(&mut self, event: Event) {
        self.0.hit(event);
    }

    fn refused(&mut self, case: &TranslationCase, refusal: &Refusal) {
        self.hit(Event::Refused(refusal.number));
        match (refusal.number, refusal.place) {
            (LEAD_RANGE, 0) => self.hit(Event::OutOfRange("access")),
            (LEAD_RANGE, 1) => self.hit(Event::OutOfRange("side")),
            (LEAD_RANGE, _) => self.hit(Event::OutOfRange("decision")),
            (BUFFER, buffer) => self.buffer_refused(case, buffer),
            _ => {}
        }
    }

    fn buffer_refused(&mut self, case: &TranslationCase, buffer: usize) {
        self.hit(Event::BufferRefused(buffer));
        let decisions = case.decisions.slice();
        let needed = oracle::measure(case.routine.slice(), case.access, case.side, decisions)
            .expect("refused for a buffer alone");
        let short = match buffer {
            WORDS_BUFFER => needed.words - case.words.len(),
            _ => needed.clauses - case.starts.len(),
        };
        if short == 1 {
            self.hit(Event::OneEntryShort(buffer));
        }
    }

    fn translated(&mut self, case: &TranslationCase, translation: &Translation) {
        self.hit(Event::Translated);
        let routine = oracle::parse(case.routine.slice()).expect("a routine that was translated");
        let survey = Survey::of(&routine);
        let facts = Facts {
            case,
            routine: &routine,
            survey: &survey,
            translation,
            named: &survey.accesses[usize::from(case.access)],
        };
        for &(name, _, holds) in SHAPES {
            if holds(&facts) {
                self.hit(Event::Shape(name));
            }
        }
    }
}
