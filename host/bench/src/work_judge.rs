//! The judging of whole reports, with just the room that they need.

use crate::fast_judge::judge;
use crate::lent::Buffers;
use crate::race::{race, Job, Times};
use crate::table::{rate, row};
use crate::{divisions, short_steps, solver_like};
use differential::proof_draft::Refutation;
use examples::long_report::{bytes, long_report};
use oracle::Room;
use pellet::ANSWER_LEN;

/// Rounds whose translation is almost as long as a buffer may be.
const SCATTERED_ROUNDS: usize = 250;
const SCATTERED_STEPS: usize = 100_001;

/// Divisions whose translation and steps are almost as long as a buffer and a
/// report may be.
const DIVISIONS: usize = 190;

pub struct Judging {
    routine: Vec<u8>,
    report: Vec<u8>,
    /// The words of the translation.
    translated: usize,
    lent: [Buffers; 2],
    answers: [[u64; ANSWER_LEN]; 2],
}

impl Judging {
    pub fn new(routine: Vec<u8>, report: &Refutation) -> Self {
        let (words, starts) = report.needed();
        let lent = Buffers::with(Room {
            words,
            starts,
            marks: report.variables as usize + 1,
            values: 32,
            trail: 32,
        });
        Judging {
            routine,
            report: bytes(report),
            translated: report.given_words(),
            lent: [lent.clone(), lent],
            answers: [[0; ANSWER_LEN]; 2],
        }
    }

    pub fn steps(&self) -> usize {
        self.answers[0][6] as usize
    }

    fn hints(&self) -> usize {
        self.answers[0][7] as usize
    }

    fn measure(&mut self, name: &str, rounds: usize) -> Times {
        let times = race(self, rounds);
        row(name, 1, times);
        println!(
            "  ({} steps, {} hints, a report of {} bytes, {} words)",
            self.steps(),
            self.hints(),
            self.report.len(),
            self.translated
        );
        rate("hints", self.hints(), times);
        rate("report bytes", self.report.len(), times);
        rate("words translated", self.translated, times);
        times
    }
}

impl Job for Judging {
    fn library(&mut self) {
        let ([lent, _], [answer, _]) = (&mut self.lent, &mut self.answers);
        let status = pellet::judge(
            &self.routine,
            &self.report,
            &mut lent.words,
            &mut lent.starts,
            &mut lent.marks,
            &mut lent.values,
            &mut lent.trail,
            answer,
        );
        assert_eq!(status, 0, "place {}", answer[0]);
    }

    fn plain(&mut self) {
        let ([_, lent], [_, answer]) = (&mut self.lent, &mut self.answers);
        let status = judge(&self.routine, &self.report, lent, answer);
        assert_eq!(status, 0, "place {}", answer[0]);
    }

    fn compare(&self) {
        assert!(self.lent[0] == self.lent[1] && self.answers[0] == self.answers[1]);
    }
}

pub fn measure() {
    let routine = examples::routines::generator(examples::SEED);
    let report = long_report(&routine);
    Judging::new(routine, &report).measure("judge the long report", 80);
    let (routine, report) = solver_like::report(1);
    Judging::new(routine, &report).measure("judge a solver-like report", 80);
    let (routine, report) = short_steps::scattered(1, SCATTERED_ROUNDS, SCATTERED_STEPS);
    Judging::new(routine, &report).measure("judge short steps over many clauses", 10);
    let routine = divisions::of_constants(DIVISIONS);
    let report = long_report(&routine);
    let name = format!("judge {DIVISIONS} divisions of 32 bits");
    Judging::new(routine, &report).measure(&name, 20);
}

/// Reports of so many short steps, for the cost of a step.
pub fn short(steps: usize) -> Judging {
    let (routine, report) = short_steps::report(1, steps);
    Judging::new(routine, &report)
}

/// The long report's kind, of so many rounds of the generator.
pub fn long(rounds: usize) -> Judging {
    let routine = crate::generator::negative(rounds);
    let report = long_report(&routine);
    Judging::new(routine, &report)
}
