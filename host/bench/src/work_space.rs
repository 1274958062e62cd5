//! The space told of the claims that `work_translate` translates, and beside the
//! largest's its translation into no buffers, which counts it as well.

use crate::divisions;
use crate::fast_translate::{space, translate, Claim};
use crate::race::{race, Job};
use crate::table::row;
use crate::work_translate::DIVISIONS;
use differential::limit::routine_of;
use oracle::MAX_ENTRIES;
use pellet::ANSWER_LEN;

const BUFFER: u8 = 16;

/// A call that counts a translation and writes none.
#[derive(Clone, Copy)]
enum Call {
    Space,
    /// Into no buffers, so that it refuses the words when it has counted.
    Translate,
}

struct Telling {
    call: Call,
    routine: Vec<u8>,
    decisions: Vec<u8>,
    /// How often it is told in a turn.
    calls: usize,
    /// What both returned at last, and answered.
    told: [(u8, [u64; ANSWER_LEN]); 2],
}

impl Telling {
    /// Access 0, side 0.
    fn new(call: Call, routine: &[u8], decisions: &[u8], calls: usize) -> Self {
        Telling {
            call,
            routine: routine.to_vec(),
            decisions: decisions.to_vec(),
            calls,
            told: [(0, [0; ANSWER_LEN]); 2],
        }
    }

    fn measure(mut self, name: &str, rounds: usize) {
        let times = race(&mut self, rounds);
        row(name, self.calls, times);
    }
}

impl Job for Telling {
    fn library(&mut self) {
        let (routine, decisions) = (&self.routine, &self.decisions);
        let (status, answer) = &mut self.told[0];
        for _ in 0..self.calls {
            *status = match self.call {
                Call::Space => pellet::space(routine, 0, 0, decisions, answer),
                Call::Translate => {
                    pellet::translate(routine, 0, 0, decisions, &mut [], &mut [], answer)
                }
            };
        }
    }

    fn plain(&mut self) {
        let claim = Claim {
            access: 0,
            side: 0,
            decisions: &self.decisions,
        };
        let (status, answer) = &mut self.told[1];
        for _ in 0..self.calls {
            *status = match self.call {
                Call::Space => space(&self.routine, claim, answer),
                Call::Translate => translate(&self.routine, claim, &mut [], &mut [], answer),
            };
        }
    }

    fn compare(&self) {
        let expected = match self.call {
            Call::Space => 0,
            Call::Translate => BUFFER,
        };
        assert_eq!(self.told[0].0, expected);
        assert_eq!(self.told[0], self.told[1]);
    }
}

pub fn measure() {
    let (routine, decisions) = routine_of(MAX_ENTRIES);
    let telling = |call| Telling::new(call, &routine, &decisions, 20);
    telling(Call::Space).measure("tell the space of the largest (16,777,216 words)", 200);
    telling(Call::Translate).measure("translate it into no buffers (refused 16)", 200);
    let divisions = divisions::of_parameters(DIVISIONS);
    let name = format!("tell the space of {DIVISIONS} divisions of 32 bits");
    Telling::new(Call::Space, &divisions, &[], 20).measure(&name, 200);
    for (name, routine) in [
        (
            "tell the space of a small one (two-sensors)",
            examples::routines::two_sensors(),
        ),
        (
            "tell the space of nested ifs (eight-branches)",
            examples::routines::eight_branches(),
        ),
    ] {
        let ifs = oracle::check(&routine).expect("a valid routine").ifs;
        Telling::new(Call::Space, &routine, &vec![2; ifs], 500).measure(name, 60);
    }
}
