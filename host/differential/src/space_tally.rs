//! What came of asking for the space of translations: a count for each refusal,
//! for what the translation then came to, and for how near the most it is; and
//! how many of each there must be.

use crate::compare::Verdict;
use crate::counter::Counter;
use crate::translation_case::TranslationCase;
use oracle::refusal::{BUFFER, LEAD_LENGTH, LEAD_RANGE, STARTS_BUFFER, WORDS_BUFFER};
use oracle::{extent_of, Extent, Most, Refusal, Translation};
use pellet::ANSWER_LEN;
use std::fmt;

/// Something that asking for the space can come to.
#[derive(Clone, Copy, Debug, PartialEq, Eq, PartialOrd, Ord)]
pub enum Event {
    Refused(u8),
    OutOfRange(&'static str),
    AnswerTooShort(usize),
    Told,
    /// The translation then answered what was told.
    TranslatedAsTold,
    /// It refused this buffer, as what was told said.
    BufferRefusedAsTold(usize),
    /// It refused the routine or the lead as well.
    RefusedAsTold,
    /// It had an answer too short, so that nothing follows for it.
    OnlySpace,
    Shape(&'static str),
}

impl fmt::Display for Event {
    fn fmt(&self, f: &mut fmt::Formatter<'_>) -> fmt::Result {
        match *self {
            Event::Refused(number) => write!(f, "space refused {number}"),
            Event::OutOfRange(what) => write!(f, "space refused 12 for the {what}"),
            Event::AnswerTooShort(len) => write!(f, "space with an answer of {len}"),
            Event::Told => write!(f, "space told"),
            Event::TranslatedAsTold => write!(f, "translated as told"),
            Event::BufferRefusedAsTold(buffer) => write!(f, "refused 16, buffer {buffer}, as told"),
            Event::RefusedAsTold => write!(f, "refused as told"),
            Event::OnlySpace => write!(f, "the translation's answer alone too short"),
            Event::Shape(name) => write!(f, "{name}"),
        }
    }
}

/// A space that was told, as the shapes below look at it.
struct Facts<'a> {
    translation: &'a Translation,
    extent: Extent,
    most: Most,
}

/// A shape: its name, how many cases must have it, and the test for it.
type Shape = (&'static str, u64, fn(&Facts) -> bool);

const SHAPES: &[Shape] = &[
    ("told with a greatest width of 1", 100, |f| {
        f.extent.width == 1
    }),
    ("told with a greatest width of 32", 300, |f| {
        f.extent.width == 32
    }),
    ("told without ifs", 300, |f| f.extent.ifs == 0),
    ("told with 32 ifs", 100, |f| f.extent.ifs == 32),
    ("told with 200 commands", 100, |f| f.extent.commands >= 200),
    ("told with over 1,000,000 words", 10, |f| {
        f.translation.words > 1_000_000
    }),
    ("over a tenth of the most variables", 200, |f| {
        10 * f.translation.variables > f.most.variables
    }),
    ("over a tenth of the most clauses", 50, |f| {
        10 * f.translation.clauses > f.most.clauses
    }),
    ("over a tenth of the most words", 50, |f| {
        10 * f.translation.words > f.most.words
    }),
];

/// Every event that must come up, with the least number of times.
fn goals() -> Vec<(Event, u64)> {
    let mut goals = Vec::new();
    goals.extend((1..=8).map(|number| (Event::Refused(number), 30)));
    goals.push((Event::Refused(LEAD_LENGTH), 100));
    goals.push((Event::Refused(LEAD_RANGE), 100));
    goals.extend(["access", "side", "decision"].map(|what| (Event::OutOfRange(what), 50)));
    goals.extend((0..ANSWER_LEN).map(|len| (Event::AnswerTooShort(len), 5)));
    goals.push((Event::Told, 2000));
    goals.push((Event::TranslatedAsTold, 2000));
    let buffers = [WORDS_BUFFER, STARTS_BUFFER];
    goals.extend(buffers.map(|buffer| (Event::BufferRefusedAsTold(buffer), 100)));
    goals.push((Event::RefusedAsTold, 1000));
    goals.push((Event::OnlySpace, 100));
    for &(name, least, _) in SHAPES {
        goals.push((Event::Shape(name), least));
    }
    goals
}

pub struct SpaceTally(Counter<Event>);

impl Default for SpaceTally {
    fn default() -> Self {
        SpaceTally(Counter::new(goals()))
    }
}

impl SpaceTally {
    pub fn counter(&self) -> &Counter<Event> {
        &self.0
    }

    /// Adds what asking for the space came to, and the translation after it.
    pub fn add(
        &mut self,
        case: &TranslationCase,
        space: &Verdict<Translation>,
        translation: &Verdict<Translation>,
    ) {
        self.0.begin_case();
        match space {
            Verdict::Done(told) => self.told(case, told),
            Verdict::Refused(refusal) => self.refused(refusal),
            Verdict::AnswerTooShort => {
                return self.hit(Event::AnswerTooShort(case.space_answer.len()));
            }
        }
        match translation {
            Verdict::Done(_) => self.hit(Event::TranslatedAsTold),
            Verdict::Refused(refusal) if refusal.number == BUFFER => {
                self.hit(Event::BufferRefusedAsTold(refusal.place));
            }
            Verdict::Refused(_) => self.hit(Event::RefusedAsTold),
            Verdict::AnswerTooShort => self.hit(Event::OnlySpace),
        }
    }

    fn hit(&mut self, event: Event) {
        self.0.hit(event);
    }

    fn refused(&mut self, refusal: &Refusal) {
        self.hit(Event::Refused(refusal.number));
        match (refusal.number, refusal.place) {
            (LEAD_RANGE, 0) => self.hit(Event::OutOfRange("access")),
            (LEAD_RANGE, 1) => self.hit(Event::OutOfRange("side")),
            (LEAD_RANGE, _) => self.hit(Event::OutOfRange("decision")),
            _ => {}
        }
    }

    fn told(&mut self, case: &TranslationCase, translation: &Translation) {
        self.hit(Event::Told);
        let routine = oracle::parse(case.routine.slice()).expect("a routine that was measured");
        let extent = extent_of(&routine);
        let facts = Facts {
            translation,
            extent,
            most: extent.most(),
        };
        for &(name, _, holds) in SHAPES {
            if holds(&facts) {
                self.hit(Event::Shape(name));
            }
        }
    }
}
