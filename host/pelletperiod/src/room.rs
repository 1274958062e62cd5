//! The room that judging takes.

use crate::claim::{Claim, Space};
use crate::counts::Counts;
use crate::refused::Refused;

/// What a word of the witness takes of a report.
const WORD_BYTES: usize = 4;
/// What a literal takes of a report.
const LITERAL_BYTES: usize = 5;
/// What the shortest step takes that can be closed: a hint and the close.
const STEP_BYTES: usize = 6;

/// How many entries the five buffers have that are lent to the judge.
#[derive(Clone, Copy, Debug, Default, PartialEq, Eq)]
pub struct Room {
    pub words: usize,
    pub starts: usize,
    pub marks: usize,
    pub values: usize,
    pub trail: usize,
}

impl Room {
    /// The least room in which a report on a claim of this space can be
    /// accepted: a proof has at least the step that closes the empty clause,
    /// which takes a word for its count and a start. None where a buffer would
    /// need more entries than are ever used.
    pub fn least(routine: &[u8], space: &Space) -> Result<Option<Room>, Refused> {
        let room = Room::with(&Counts::of(routine)?, space, 1, 1);
        Ok((room == room.used()).then_some(room))
    }

    /// So much room that more would not change what the judge says of a report.
    ///
    /// Each literal takes five bytes of the proof and one word. Each step that
    /// is closed takes a word for its count and a start, and at least a hint and
    /// the close, six bytes: one without a conflict is refused before its word
    /// and its start are looked for. One more of both is for the step being
    /// read. So 16 and 25 come only where they come in any room.
    ///
    /// None is lent where the routine is refused, the report ends within its
    /// lead, or the claim is refused: all this comes before the judge looks at a
    /// buffer.
    pub fn of_report(routine: &[u8], report: &[u8]) -> Room {
        Room::told(routine, report).unwrap_or_default()
    }

    fn told(routine: &[u8], report: &[u8]) -> Option<Room> {
        let counts = Counts::of(routine).ok()?;
        let lead = 2 + counts.ifs + WORD_BYTES * counts.inputs();
        let proof = report.len().checked_sub(lead)?;
        let claim = Claim {
            routine: routine.to_vec(),
            access: report[0],
            side: report[1],
            decisions: report[2..2 + counts.ifs].to_vec(),
        };
        let space = claim.space().ok()?;
        let words = proof / LITERAL_BYTES + 1;
        let starts = proof / STEP_BYTES + 1;
        Some(Room::with(&counts, &space, words, starts).used())
    }

    /// Room for the clauses of this space, and so many words and starts more
    /// for the steps of a proof.
    fn with(counts: &Counts, space: &Space, words: usize, starts: usize) -> Room {
        Room {
            words: space.words + words,
            starts: space.clauses + starts,
            marks: space.variables as usize + 1,
            values: counts.variables,
            trail: counts.ifs,
        }
    }

    /// The entries that the judge uses of these.
    fn used(self) -> Room {
        Room {
            words: self.words.min(pellet::MAX_ENTRIES),
            starts: self.starts.min(pellet::MAX_ENTRIES),
            marks: self.marks.min(pellet::MAX_ENTRIES),
            ..self
        }
    }

    /// What the buffers take. Words, starts and values have entries of four
    /// bytes.
    pub fn bytes(&self) -> usize {
        4 * (self.words + self.starts + self.values) + self.marks + self.trail
    }
}
