//! The zeroing of five full buffers, which is all that is left to do where a
//! report is turned down at once.

use crate::fast_judge::judge;
use crate::lent::Buffers;
use crate::race::{race, Job};
use crate::table::{rate, row};
use oracle::{Room, MAX_ENTRIES};
use pellet::ANSWER_LEN;

/// Entries beyond those that are used.
const BEYOND: usize = 8;

struct Zeroing {
    lent: Buffers,
    answers: [[u64; ANSWER_LEN]; 2],
}

impl Zeroing {
    fn expect_zeros(&self) {
        fn are_zeros<T: PartialEq + From<u8>>(buffer: &[T]) -> bool {
            let (used, beyond) = buffer.split_at(MAX_ENTRIES);
            used.iter().all(|entry| *entry == T::from(0))
                && beyond.iter().all(|entry| *entry == T::from(7))
        }
        let Buffers {
            words,
            starts,
            marks,
            values,
            trail,
        } = &self.lent;
        assert!(are_zeros(words) && are_zeros(starts) && are_zeros(values));
        assert!(are_zeros(marks) && are_zeros(trail));
    }
}

impl Job for Zeroing {
    fn prepare(&mut self, _turn: usize) {
        self.lent.fill();
    }

    fn library(&mut self) {
        let Buffers {
            words,
            starts,
            marks,
            values,
            trail,
        } = &mut self.lent;
        let answer = &mut self.answers[0];
        let status = pellet::judge(&[], &[], words, starts, marks, values, trail, answer);
        assert_eq!(status, 1);
    }

    fn plain(&mut self) {
        let status = judge(&[], &[], &mut self.lent, &mut self.answers[1]);
        assert_eq!(status, 1);
    }

    fn compare(&self) {
        assert_eq!(self.answers[0], self.answers[1]);
    }
}

pub fn measure() {
    let full = MAX_ENTRIES + BEYOND;
    let mut job = Zeroing {
        lent: Buffers::with(Room {
            words: full,
            starts: full,
            marks: full,
            values: full,
            trail: full,
        }),
        answers: [[0; ANSWER_LEN]; 2],
    };
    job.library();
    job.expect_zeros();
    job.prepare(1);
    job.plain();
    job.expect_zeros();
    let times = race(&mut job, 20);
    row("zero five full buffers", 1, times);
    rate("bytes", (3 * 4 + 2) * MAX_ENTRIES, times);
}
