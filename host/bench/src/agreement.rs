//! Plain Rust gives the library's answers, refusals too, and leaves the same in
//! every buffer: on the cases that the differential tests draw.

use crate::fast_judge::judge;
use crate::fast_prove::prove;
use crate::fast_run::run;
use crate::fast_translate::{space, translate, Claim};
use crate::lent::Buffers;
use differential::case::Case;
use differential::limit::routine_of;
use differential::proof_case::ProofCase;
use differential::report_case::ReportCase;
use differential::rng::Rng;
use differential::translation_case::TranslationCase;
use pellet::{ANSWER_LEN, MAX_ENTRIES};

const CASES: u64 = 2000;

type Run = fn(&[u8], &[u32], &mut [u32], &mut [u8], &mut [u64]) -> u8;

#[test]
fn runs() {
    for number in 0..CASES {
        let case = Case::draw(&mut Rng::for_case(11, number));
        let (routine, inputs) = (case.routine.slice(), case.inputs.slice());
        let made = |call: Run| {
            let mut values = case.values.slice().to_vec();
            let mut trail = case.trail.slice().to_vec();
            let mut answer = case.run_answer.slice().to_vec();
            let status = call(routine, inputs, &mut values, &mut trail, &mut answer);
            (status, values, trail, answer)
        };
        assert_eq!(made(pellet::run), made(run), "case {number}");
    }
}

#[test]
fn translations() {
    for number in 0..CASES {
        let case = TranslationCase::draw(&mut Rng::for_case(12, number));
        let (routine, decisions) = (case.routine.slice(), case.decisions.slice());
        let lent = || {
            let (words, starts) = (case.words.slice(), case.starts.slice());
            (
                words.to_vec(),
                starts.to_vec(),
                case.answer.slice().to_vec(),
            )
        };
        let (mut words, mut starts, mut answer) = lent();
        let (access, side) = (case.access, case.side);
        let by_library = pellet::translate(
            routine,
            access,
            side,
            decisions,
            &mut words,
            &mut starts,
            &mut answer,
        );
        let library = (by_library, words, starts, answer);
        let claim = Claim {
            access,
            side,
            decisions,
        };
        let (mut words, mut starts, mut answer) = lent();
        let by_plain = translate(routine, claim, &mut words, &mut starts, &mut answer);
        let plain = (by_plain, words, starts, answer);
        assert!(library == plain, "case {number}");
    }
}

#[test]
fn spaces() {
    let mut told = 0;
    for number in 0..CASES {
        let case = TranslationCase::draw(&mut Rng::for_case(15, number));
        let (routine, decisions) = (case.routine.slice(), case.decisions.slice());
        let (access, side) = (case.access, case.side);
        let claim = Claim {
            access,
            side,
            decisions,
        };
        let mut answers = [(); 2].map(|()| case.answer.slice().to_vec());
        let by_library = pellet::space(routine, access, side, decisions, &mut answers[0]);
        let by_plain = space(routine, claim, &mut answers[1]);
        assert_eq!(by_library, by_plain, "case {number}");
        assert_eq!(answers[0], answers[1], "case {number}");
        told += u64::from(by_library == 0);
    }
    assert!(told > CASES / 2, "{told}");
}

/// More words than any buffer is used for, which a translation refuses.
#[test]
fn spaces_beyond_all_buffers() {
    for words in [MAX_ENTRIES, MAX_ENTRIES + 2] {
        let (routine, decisions) = routine_of(words);
        let claim = Claim {
            access: 0,
            side: 0,
            decisions: &decisions,
        };
        let mut answers = [[0; ANSWER_LEN]; 2];
        assert_eq!(
            pellet::space(&routine, 0, 0, &decisions, &mut answers[0]),
            0
        );
        assert_eq!(space(&routine, claim, &mut answers[1]), 0);
        assert_eq!(answers[0], answers[1]);
        assert_eq!(answers[0][1], words as u64);
    }
}

#[test]
fn proofs() {
    for number in 0..CASES {
        let case = ProofCase::draw(&mut Rng::for_case(13, number));
        let report = case.report.slice();
        let (from, clauses, variables) = (case.from, case.clauses, case.variables);
        let lent = Buffers {
            words: case.words.slice().to_vec(),
            starts: case.starts.slice().to_vec(),
            marks: case.marks.slice().to_vec(),
            values: Vec::new(),
            trail: Vec::new(),
        };
        let (mut library, mut plain) = (lent.clone(), lent);
        let mut answers = [(); 2].map(|()| case.answer.slice().to_vec());
        let by_library = pellet::prove(
            report,
            from,
            clauses,
            variables,
            &library.words,
            &mut library.starts,
            &mut library.marks,
            &mut answers[0],
        );
        let by_plain = prove(
            report,
            from,
            clauses,
            variables,
            &mut plain,
            &mut answers[1],
        );
        assert_eq!(by_library, by_plain, "case {number}");
        assert_eq!(answers[0], answers[1], "case {number}");
        assert!(library == plain, "case {number}");
    }
}

#[test]
fn reports() {
    for number in 0..CASES {
        let case = ReportCase::draw(&mut Rng::for_case(14, number));
        let (routine, report) = (case.routine.slice(), case.report.slice());
        let lent = Buffers {
            words: case.words.slice().to_vec(),
            starts: case.starts.slice().to_vec(),
            marks: case.marks.slice().to_vec(),
            values: case.values.slice().to_vec(),
            trail: case.trail.slice().to_vec(),
        };
        let (mut library, mut plain) = (lent.clone(), lent);
        let mut answers = [(); 2].map(|()| case.answer.slice().to_vec());
        let by_library = pellet::judge(
            routine,
            report,
            &mut library.words,
            &mut library.starts,
            &mut library.marks,
            &mut library.values,
            &mut library.trail,
            &mut answers[0],
        );
        let by_plain = judge(routine, report, &mut plain, &mut answers[1]);
        assert_eq!(by_library, by_plain, "case {number}");
        assert_eq!(answers[0], answers[1], "case {number}");
        assert!(library == plain, "case {number}");
    }
}
