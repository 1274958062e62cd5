//! Translations: the largest, one of divisions alone, and small ones again and
//! again.

use crate::divisions;
use crate::fast_translate::{translate, Claim};
use crate::lent::Buffers;
use crate::race::{race, Job};
use crate::table::{rate, row};
use differential::limit::routine_of;
use oracle::{Room, MAX_ENTRIES};
use pellet::ANSWER_LEN;

/// As many as a buffer has words for.
pub const DIVISIONS: usize = 220;

struct Translating {
    routine: Vec<u8>,
    decisions: Vec<u8>,
    /// How often it is translated in a turn.
    calls: usize,
    lent: [Buffers; 2],
    answers: [[u64; ANSWER_LEN]; 2],
}

impl Translating {
    /// Access 0, side 0.
    fn new(routine: Vec<u8>, decisions: Vec<u8>, calls: usize) -> Self {
        let needed = oracle::measure(&routine, 0, 0, &decisions).expect("a valid claim");
        let lent = Buffers::with(Room {
            words: needed.words,
            starts: needed.clauses,
            marks: 0,
            values: 0,
            trail: 0,
        });
        Translating {
            routine,
            decisions,
            calls,
            lent: [lent.clone(), lent],
            answers: [[0; ANSWER_LEN]; 2],
        }
    }

    fn measure(&mut self, name: &str, rounds: usize) {
        let times = race(self, rounds);
        row(name, self.calls, times);
        rate("words", self.lent[0].words.len() * self.calls, times);
    }
}

impl Job for Translating {
    fn library(&mut self) {
        let ([lent, _], [answer, _]) = (&mut self.lent, &mut self.answers);
        for _ in 0..self.calls {
            let (words, starts) = (&mut lent.words, &mut lent.starts);
            let status =
                pellet::translate(&self.routine, 0, 0, &self.decisions, words, starts, answer);
            assert_eq!(status, 0);
        }
    }

    fn plain(&mut self) {
        let ([_, lent], [_, answer]) = (&mut self.lent, &mut self.answers);
        for _ in 0..self.calls {
            let claim = Claim {
                access: 0,
                side: 0,
                decisions: &self.decisions,
            };
            let (words, starts) = (&mut lent.words, &mut lent.starts);
            let status = translate(&self.routine, claim, words, starts, answer);
            assert_eq!(status, 0);
        }
    }

    fn compare(&self) {
        assert!(self.lent[0] == self.lent[1] && self.answers[0] == self.answers[1]);
    }
}

pub fn measure() {
    let (routine, decisions) = routine_of(MAX_ENTRIES);
    let name = "translate the largest (16,777,216 words)";
    Translating::new(routine, decisions, 1).measure(name, 40);
    let name = format!("translate {DIVISIONS} divisions of 32 bits");
    Translating::new(divisions::of_parameters(DIVISIONS), vec![], 1).measure(&name, 40);
    for (name, routine) in [
        (
            "translate a small one (two-sensors)",
            examples::routines::two_sensors(),
        ),
        (
            "translate one of nested ifs (eight-branches)",
            examples::routines::eight_branches(),
        ),
    ] {
        let ifs = oracle::check(&routine).expect("a valid routine").ifs;
        Translating::new(routine, vec![2; ifs], 500).measure(name, 60);
    }
}
