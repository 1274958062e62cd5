//! Routines of about 4,096 bytes, run again and again: one of all kinds of
//! commands but divisions, and one of divisions alone.

use crate::divisions;
use crate::fast_run::run;
use crate::long_routine::draw;
use crate::race::{race, Job};
use crate::table::{rate, row};
use pellet::ANSWER_LEN;

const CALLS: usize = 200;

struct Running {
    routine: Vec<u8>,
    inputs: Vec<u32>,
    values: [[u32; 32]; 2],
    trails: [[u8; 32]; 2],
    answers: [[u64; ANSWER_LEN]; 2],
}

impl Running {
    fn new(routine: Vec<u8>, inputs: Vec<u32>) -> Self {
        Running {
            routine,
            inputs,
            values: [[7; 32]; 2],
            trails: [[7; 32]; 2],
            answers: [[7; ANSWER_LEN]; 2],
        }
    }

    fn measure(&mut self, name: &str) {
        let times = race(self, 100);
        row(name, CALLS, times);
        rate("routine bytes", CALLS * self.routine.len(), times);
    }
}

impl Job for Running {
    fn library(&mut self) {
        for _ in 0..CALLS {
            let (values, trail) = (&mut self.values[0], &mut self.trails[0]);
            let answer = &mut self.answers[0];
            let status = pellet::run(&self.routine, &self.inputs, values, trail, answer);
            assert_eq!(status, 0);
        }
    }

    fn plain(&mut self) {
        for _ in 0..CALLS {
            let (values, trail) = (&mut self.values[1], &mut self.trails[1]);
            let answer = &mut self.answers[1];
            let status = run(&self.routine, &self.inputs, values, trail, answer);
            assert_eq!(status, 0);
        }
    }

    fn compare(&self) {
        assert_eq!(self.values[0], self.values[1]);
        assert_eq!(self.trails[0], self.trails[1]);
        assert_eq!(self.answers[0], self.answers[1]);
    }
}

pub fn measure() {
    let (routine, inputs) = draw(1);
    let mut job = Running::new(routine, inputs);
    job.measure("run a routine of 4,096 bytes");
    assert_eq!(job.answers[0][0], 0, "the run goes to the end");
    let parameters: [u32; divisions::PARAMETERS] = [0xFEDC_BA98, 0x1234_5678, 0x9ABC, 0xF];
    let inputs = [parameters, [0; divisions::RESULTS]].concat();
    let mut job = Running::new(divisions::of_parameters(1000), inputs);
    job.measure("run 1,000 divisions of 32 bits");
}
