//! Answers of every length below 16, with buffers in which no entry is 0: each
//! call returns 255, whether it would be done or refused otherwise. Judging
//! zeroes its five buffers all the same, and the other calls leave everything
//! as it was. With 16 entries each call is done or refused, and leaves the
//! entries alone that it does not name. This holds of the library whatever the
//! oracle says.

use std::fmt::Debug;
use std::hint::black_box;

/// The second routine of the bench section, and its report.
const ROUTINE: &[u8] = &[1, 1, 1, 0, 1, 1, 0, 0x01, 0, 1, 0, 0, 0, 0x0A, 0, 0, 0, 0];
const REPORT: &[u8] = &[0, 0, 0, 0, 0, 0, 2, 0, 0, 0, 0, 2, 2, 0, 0, 0, 3, 0];
/// So many bytes of it are the lead: access, side and the input word.
const LEAD: usize = 6;

/// No more entries of a buffer are used.
const USED: usize = 16_777_216;

/// Every call needs so many entries in `answer`.
const NEEDED: usize = 16;

/// Makes the call with each answer that is too short.
fn with_short_answers(mut call: impl FnMut(&mut [u64]) -> u8) {
    for len in 0..NEEDED {
        let mut answer = [9; NEEDED + 4];
        assert_eq!(call(&mut answer[..len]), 255, "an answer of {len}");
        assert_eq!(answer, [9; NEEDED + 4], "an answer of {len}");
    }
}

/// Makes the call with an answer that just suffices and with a longer one: it
/// returns this status and tells these entries. All behind them stay as they
/// were, those that are lent and those that are not.
fn with_long_answers(status: u8, told: &[u64], mut call: impl FnMut(&mut [u64]) -> u8) {
    for len in [NEEDED, NEEDED + 1] {
        let mut answer = [9; NEEDED + 4];
        assert_eq!(call(&mut answer[..len]), status, "an answer of {len}");
        let (first, others) = answer.split_at(told.len());
        assert_eq!(first, told, "an answer of {len}");
        assert!(others.iter().all(|&entry| entry == 9), "{answer:?}");
    }
}

#[test]
fn check_changes_nothing() {
    for routine in [ROUTINE, &[]] {
        with_short_answers(|answer| pellet::check(routine, answer));
    }
}

#[test]
fn run_changes_nothing() {
    for routine in [ROUTINE, &[]] {
        with_short_answers(|answer| {
            let (mut values, mut trail) = ([9; 4], [9; 4]);
            let status = pellet::run(routine, &[0], &mut values, &mut trail, answer);
            assert_eq!((values, trail), ([9; 4], [9; 4]));
            status
        });
    }
}

#[test]
fn translate_changes_nothing() {
    for routine in [ROUTINE, &[]] {
        with_short_answers(|answer| {
            let (mut words, mut starts) = ([9; 8], [9; 5]);
            let status = pellet::translate(routine, 0, 0, &[], &mut words, &mut starts, answer);
            assert_eq!((words, starts), ([9; 8], [9; 5]));
            status
        });
    }
}

/// Of a space that is told otherwise, and of one that is refused for the routine
/// or for the lead. What is only read is looked at again, although the compiler
/// knows it as such.
#[test]
fn space_changes_nothing() {
    for (routine, side) in [(ROUTINE, 0), (&[], 0), (ROUTINE, 9)] {
        for decisions in [&[][..], &[2]] {
            with_short_answers(|answer| {
                let lent = (routine.to_vec(), decisions.to_vec());
                let status = pellet::space(&lent.0, 0, side, &lent.1, answer);
                let left = black_box(&lent);
                assert_eq!((&left.0[..], &left.1[..]), (routine, decisions));
                status
            });
        }
    }
}

/// The clauses of the bench's report, and entries behind them.
const WORDS: [u32; 8] = [1, 2, 1, 2, 1, 3, 9, 9];
const STARTS: [u32; 5] = [0, 2, 4, 9, 9];

/// Checks a report's proof against these clauses of so many variables. The
/// words stay as they were, and on 254 and 255 everything does; else the starts
/// and the marks are zeroed.
fn prove(report: &[u8], variables: u32, answer: &mut [u64]) -> u8 {
    let (words, mut starts, mut marks) = (WORDS, STARTS, [9; 4]);
    let lent = (&words, &mut starts, &mut marks);
    let status = pellet::prove(report, LEAD, 3, variables, lent.0, lent.1, lent.2, answer);
    let left = match status {
        254 | 255 => (STARTS, [9; 4]),
        _ => ([0; 5], [0; 4]),
    };
    assert_eq!((starts, marks), left);
    // They are looked at again, although the compiler knows them as only read.
    assert_eq!(*black_box(&words), WORDS);
    status
}

/// Of two variables, of a proof that is cut short, and of more variables than
/// there are marks for, which is 254 otherwise.
#[test]
fn prove_changes_nothing() {
    for (report, variables) in [(REPORT, 2), (&REPORT[..17], 2), (REPORT, 4)] {
        with_short_answers(|answer| prove(report, variables, answer));
    }
}

#[test]
fn alike_changes_nothing() {
    for (routine, first) in [(ROUTINE, REPORT), (ROUTINE, &[]), (&[], REPORT)] {
        with_short_answers(|answer| pellet::alike(routine, first, REPORT, answer));
    }
}

/// Judges with so many entries of 9 lent.
fn judge(routine: &[u8], report: &[u8], lent: [usize; 5], answer: &mut [u64]) -> u8 {
    let [words, starts, marks, values, trail] = lent;
    let (mut words, mut starts, mut marks) = (vec![9; words], vec![9; starts], vec![9; marks]);
    let (mut values, mut trail) = (vec![9; values], vec![9; trail]);
    let status = pellet::judge(
        routine,
        report,
        &mut words,
        &mut starts,
        &mut marks,
        &mut values,
        &mut trail,
        answer,
    );
    assert_zeroed("words", &words);
    assert_zeroed("starts", &starts);
    assert_zeroed("marks", &marks);
    assert_zeroed("values", &values);
    assert_zeroed("trail", &trail);
    status
}

/// Zeros as far as buffers are used, and beyond what stood there.
fn assert_zeroed<T: Copy + Debug + PartialEq + From<u8>>(name: &str, buffer: &[T]) {
    for (k, &entry) in buffer.iter().enumerate() {
        let expected = T::from(if k < USED { 0 } else { 9 });
        assert_eq!(entry, expected, "{name}: entry {k}");
    }
}

/// Of a report that is accepted otherwise, of one that is refused, and of one
/// whose routine is; with room, with one buffer too small, and with none.
#[test]
fn judge_zeroes() {
    for (routine, report) in [(ROUTINE, REPORT), (ROUTINE, &[]), (&[], REPORT)] {
        for lent in [[16, 16, 16, 4, 4], [16, 16, 0, 4, 4], [0; 5]] {
            with_short_answers(|answer| judge(routine, report, lent, answer));
        }
    }
}

#[test]
fn judge_zeroes_to_the_limit() {
    with_short_answers(|answer| judge(ROUTINE, REPORT, [USED + 3; 5], answer));
}

#[test]
fn sixteen_entries_suffice() {
    with_long_answers(0, &[1, 0, 1, 0, 1, 0, 7], |answer| {
        pellet::check(ROUTINE, answer)
    });
    with_long_answers(0, &[1, 0, 0, 1, 1], |answer| {
        pellet::run(ROUTINE, &[0], &mut [9; 4], &mut [9; 4], answer)
    });
    with_long_answers(0, &[3, 6, 2], |answer| {
        pellet::translate(ROUTINE, 0, 0, &[], &mut [9; 8], &mut [9; 5], answer)
    });
    with_long_answers(0, &[3, 6, 2], |answer| {
        pellet::space(ROUTINE, 0, 0, &[], answer)
    });
    with_long_answers(0, &[1, 2], |answer| prove(REPORT, 2, answer));
    with_long_answers(0, &[0, 0, 0, 1, 1, 1, 1, 2], |answer| {
        judge(ROUTINE, REPORT, [16, 16, 16, 4, 4], answer)
    });
    with_long_answers(0, &[1], |answer| {
        pellet::alike(ROUTINE, REPORT, REPORT, answer)
    });
}

/// Each call with a refusal, and the proof's with 254, which tells nothing.
#[test]
fn sixteen_entries_suffice_to_refuse() {
    with_long_answers(1, &[0], |answer| pellet::check(&[], answer));
    with_long_answers(9, &[2], |answer| {
        pellet::run(ROUTINE, &[0, 0], &mut [9; 4], &mut [9; 4], answer)
    });
    with_long_answers(12, &[1], |answer| {
        pellet::translate(ROUTINE, 0, 9, &[], &mut [9; 8], &mut [9; 5], answer)
    });
    with_long_answers(11, &[2], |answer| {
        pellet::space(ROUTINE, 0, 9, &[2, 2], answer)
    });
    with_long_answers(17, &[17], |answer| prove(&REPORT[..17], 2, answer));
    with_long_answers(254, &[], |answer| prove(REPORT, 4, answer));
    with_long_answers(16, &[2], |answer| {
        judge(ROUTINE, REPORT, [16, 16, 0, 4, 4], answer)
    });
    with_long_answers(11, &[0], |answer| {
        pellet::alike(ROUTINE, &[], REPORT, answer)
    });
}
