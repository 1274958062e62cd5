//! The check of a long proof over clauses that stand in the buffers.

use crate::fast_prove::prove;
use crate::lent::Buffers;
use crate::race::{race, Job};
use crate::table::{rate, row};
use differential::long_proof::long_proof;
use differential::proof_draft::{encode, Refutation};
use oracle::Room;
use pellet::ANSWER_LEN;

const VARIABLES: u32 = 1_000_000;

struct Proving {
    proof: Vec<u8>,
    clauses: u32,
    /// Where the given clauses start.
    starts: Vec<u32>,
    lent: [Buffers; 2],
    answers: [[u64; ANSWER_LEN]; 2],
}

impl Proving {
    fn new(refutation: &Refutation) -> Self {
        let (words, starts) = refutation.needed();
        let mut lent = Buffers::with(Room {
            words,
            starts,
            marks: refutation.variables as usize + 1,
            values: 0,
            trail: 0,
        });
        let mut at = 0;
        let mut starts = Vec::new();
        for clause in &refutation.clauses {
            starts.push(at as u32);
            lent.words[at] = clause.len() as u32;
            lent.words[at + 1..][..clause.len()].copy_from_slice(clause);
            at += 1 + clause.len();
        }
        Proving {
            proof: encode(&refutation.commands),
            clauses: refutation.clauses.len() as u32,
            starts,
            lent: [lent.clone(), lent],
            answers: [[0; ANSWER_LEN]; 2],
        }
    }
}

impl Job for Proving {
    /// A turn zeroes the starts.
    fn prepare(&mut self, turn: usize) {
        let starts = &mut self.lent[turn].starts;
        starts[..self.starts.len()].copy_from_slice(&self.starts);
    }

    fn library(&mut self) {
        let ([lent, _], [answer, _]) = (&mut self.lent, &mut self.answers);
        let status = pellet::prove(
            &self.proof,
            0,
            self.clauses,
            VARIABLES,
            &lent.words,
            &mut lent.starts,
            &mut lent.marks,
            answer,
        );
        assert_eq!(status, 0, "place {}", answer[0]);
    }

    fn plain(&mut self) {
        let ([_, lent], [_, answer]) = (&mut self.lent, &mut self.answers);
        let status = prove(&self.proof, 0, self.clauses, VARIABLES, lent, answer);
        assert_eq!(status, 0, "place {}", answer[0]);
    }

    fn compare(&self) {
        assert!(self.lent[0] == self.lent[1] && self.answers[0] == self.answers[1]);
    }
}

pub fn measure() {
    let mut job = Proving::new(&long_proof(VARIABLES));
    let times = race(&mut job, 40);
    let [steps, hints, ..] = job.answers[0];
    row("check a proof over a million variables", 1, times);
    println!(
        "  ({steps} steps, {hints} hints, {} bytes)",
        job.proof.len()
    );
    rate("hints", hints as usize, times);
}
