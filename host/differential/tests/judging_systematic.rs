//! The bench's reports, divisions at every width, every length of every buffer
//! around the one needed, and the limits, compared with the oracle entry by entry.

use differential::alike_case::AlikeCase;
use differential::alike_compare::compare_alike;
use differential::compare::Verdict;
use differential::limit::routine_of;
use differential::proof_draft::{encode, Command};
use differential::refute::{refute, Style};
use differential::report_case::ReportCase;
use differential::report_compare::compare_report;
use differential::report_draft::Report;
use differential::rng::Rng;
use oracle::{translate, Clauses, Finding, Outcome, Refusal, Room, Side, MAX_ENTRIES, MAX_REPORT};

const SEED: u64 = 0x50E1_1E7D_2026_000F;

/// The second routine of the bench section, and its report.
const ROUTINE: &[u8] = &[1, 1, 1, 0, 1, 1, 0, 0x01, 0, 1, 0, 0, 0, 0x0A, 0, 0, 0, 0];
const REPORT: &[u8] = &[0, 0, 0, 0, 0, 0, 2, 0, 0, 0, 0, 2, 2, 0, 0, 0, 3, 0];

/// What library and oracle both come to, with so much room lent.
fn agreed(routine: &[u8], report: &[u8], lent: [usize; 5]) -> Verdict<Finding> {
    let [words, starts, marks, values, trail] = lent;
    let room = Room {
        words,
        starts,
        marks,
        values,
        trail,
    };
    let case = ReportCase::lending(&mut Rng::for_case(SEED, 0), routine, report, room);
    compare_report(&case).unwrap_or_else(|report| panic!("{report}"))
}

/// With what the judging program of the bench section lends.
fn judged(routine: &[u8], report: &[u8]) -> Verdict<Finding> {
    agreed(routine, report, [16_384, 16_384, 16_384, 32, 32])
}

fn refused<T>(number: u8, place: usize) -> Verdict<T> {
    Verdict::Refused(Refusal { number, place })
}

fn bench_finding() -> Verdict<Finding> {
    Verdict::Done(Finding {
        access: 0,
        side: Side::Below,
        array: 0,
        size: 1,
        index: -1,
        steps: 1,
        hints: 2,
    })
}

#[test]
fn bench_reports() {
    assert_eq!(judged(ROUTINE, REPORT), bench_finding());
    let with = |hints: &[u8]| [&REPORT[..6], hints, &[3, 0]].concat();
    let other_hint = with(&[2, 0, 0, 0, 0, 2, 1, 0, 0, 0]);
    assert_eq!(judged(ROUTINE, &other_hint), refused(20, 11));
    let third_hint = with(&[2, 0, 0, 0, 0, 2, 2, 0, 0, 0, 2, 1, 0, 0, 0]);
    assert_eq!(judged(ROUTINE, &third_hint), refused(22, 16));
    assert_eq!(judged(ROUTINE, &REPORT[..17]), refused(17, 17));
    // Missing files are empty ones.
    assert_eq!(judged(&[], REPORT), refused(1, 0));
    assert_eq!(judged(ROUTINE, &[]), refused(11, 0));
}

/// A write at the quotient or remainder of two constants.
fn divide_constants(code: u8, width: u8, d: u8, [a, b]: [u32; 2]) -> Vec<u8> {
    let mut routine = vec![1, 3, width, width, width, 0, 1, 1, 0];
    for (variable, constant) in [(0, a), (1, b)] {
        routine.extend([0x01, variable]);
        routine.extend(constant.to_le_bytes());
    }
    routine.extend([code, d, 0, 1, 0x0A, 0, d, 0, 0]);
    routine
}

/// A proof about access 0 of a routine without ifs that propagation alone makes,
/// where it can, and the room that judging it takes.
fn propagated(routine: &[u8], side: u8) -> (Option<Vec<Command>>, [usize; 5]) {
    let mut clauses = Clauses::default();
    let needed = translate(routine, 0, side, &[], &mut clauses).expect("a valid claim");
    let rng = &mut Rng::for_case(SEED, 2);
    let variables = needed.variables as u32;
    let proof = refute(rng, &clauses.numbers(), variables, Style::default(), 1);
    let (words, starts) = (needed.words + 1, needed.clauses + 1);
    (proof, [words, starts, needed.variables + 1, 3, 0])
}

/// Judges a report on access 0 of a routine without ifs, with these inputs. Its
/// proof is made where propagation alone can make one, which a constant divisor
/// of zero or two constants make sure of; else there is none.
fn judge_division(routine: &[u8], side: u8, inputs: &[u32]) -> Verdict<Finding> {
    let (proof, needed) = propagated(routine, side);
    let mut report = vec![0, side];
    report.extend(inputs.iter().flat_map(|word| word.to_le_bytes()));
    report.extend(encode(&proof.unwrap_or_default()));
    agreed(routine, &report, needed)
}

/// The side and index of an accepted report.
fn found(verdict: Verdict<Finding>) -> Option<(Side, i64)> {
    match verdict {
        Verdict::Done(finding) => Some((finding.side, finding.index)),
        _ => None,
    }
}

/// Of two constants, with the destination one of them too: a report on the side
/// on which the index lies is accepted, and on the other refused with 15.
#[test]
fn divisions_of_constants_at_every_width() {
    let mut accepted = [0; 2];
    for width in 1..=32 {
        let (half, most) = (1_u32 << (width - 1), u32::MAX >> (32 - width));
        let operands = [
            [most, 0],
            [half, 0],
            [0, 0],
            [most, 1],
            [half - 1, most],
            [most, most / 3],
        ];
        for (number, operands) in operands.into_iter().enumerate() {
            for code in [0x0E, 0x0F] {
                let routine = divide_constants(code, width, number as u8 % 3, operands);
                // What was left is set, or lost in the result.
                let left = [most, half, most];
                let run = oracle::run(&routine, &left, 3, 0).expect("an accepted run");
                for (byte, side) in [(0, Side::Below), (1, Side::Above)] {
                    let verdict = judge_division(&routine, byte, &left);
                    match run.outcome {
                        Outcome::Stopped {
                            side: on, index, ..
                        } if on == side => {
                            assert_eq!(found(verdict), Some((side, index)));
                            accepted[usize::from(byte)] += 1;
                        }
                        _ => assert_eq!(verdict, refused(15, 0)),
                    }
                }
            }
        }
    }
    assert!(accepted[0] > 100 && accepted[1] > 50, "{accepted:?}");
}

/// A write at the quotient of a parameter by a variable that is none, which was
/// set to 0 or after nothing.
fn divide_by_leftover(width: u8, before: &[u8]) -> Vec<u8> {
    let header = [1, 2, width, width, 1, 1, 1, 0];
    let commands = [0x0E, 1, 0, 1, 0x0A, 0, 1, 0, 0];
    [header.as_slice(), before, &commands].concat()
}

const SET_TO_ZERO: &[u8] = &[0x01, 1, 0, 0, 0, 0];

/// By a variable that is set to 0 the quotient is -1 for every dividend.
#[test]
fn quotients_by_zero_at_every_width() {
    for width in 1..=32 {
        let routine = divide_by_leftover(width, SET_TO_ZERO);
        let most = u32::MAX >> (32 - width);
        for dividend in [0, 1, most] {
            let verdict = judge_division(&routine, 0, &[dividend, most]);
            assert_eq!(found(verdict), Some((Side::Below, -1)));
        }
    }
}

/// Where it is not set, a 0 may have been left in it, and the quotient is -1
/// then. But that is no finding, for 0 by 1 is inside the array; a proof that
/// took it for 0, whose hints have the same numbers, is turned down.
#[test]
fn quotients_by_what_was_left_at_every_width() {
    for width in 1..=32 {
        let set = divide_by_leftover(width, SET_TO_ZERO);
        let left = divide_by_leftover(width, &[]);
        let (proof, needed) = propagated(&set, 0);
        let lead = [0; 10];
        let report = [&lead[..], &encode(&proof.expect("a proof"))].concat();
        assert!(found(agreed(&set, &report, needed)).is_some());
        match agreed(&left, &report, needed) {
            Verdict::Refused(refusal) => assert!([20, 21].contains(&refusal.number)),
            verdict => panic!("{verdict:?}"),
        }
        let run = oracle::run(&left, &[0, 1], 2, 0).expect("an accepted run");
        assert_eq!(run.outcome, Outcome::Ended);
    }
}

/// A report of at least so many steps, and what judging it needs.
fn with_steps(least: usize) -> (Report, [usize; 5]) {
    let report = (0..)
        .map(|case| Report::draw(&mut Rng::for_case(SEED, case)))
        .find(|report| report.refutation.steps().len() >= least && report.claim.routine.ifs > 1)
        .expect("one of them");
    let (words, starts) = report.refutation.needed();
    let marks = report.refutation.variables as usize + 1;
    let routine = &report.claim.routine;
    let (values, trail) = (routine.header.widths.len(), routine.ifs);
    (report, [words, starts, marks, values, trail])
}

/// Each buffer shorter and longer than needed, the others just long enough.
#[test]
fn every_length_of_every_buffer() {
    let (report, needed) = with_steps(4);
    let bytes = [
        &report.refutation.lead[..],
        &encode(&report.refutation.commands),
    ]
    .concat();
    let routine = &report.claim.bytes;
    let given = [
        report.refutation.given_words(),
        report.refutation.clauses.len(),
    ];
    for buffer in 0..5 {
        for len in 0..=needed[buffer] + 2 {
            let mut lent = needed;
            lent[buffer] = len;
            let verdict = agreed(routine, &bytes, lent);
            let number = match verdict {
                Verdict::Refused(refusal) => refusal.number,
                _ => 0,
            };
            let expected = match given.get(buffer) {
                _ if len >= needed[buffer] => 0,
                Some(&given) if len >= given => 25,
                _ => 16,
            };
            assert_eq!(number, expected, "buffer {buffer} of {len}");
        }
    }
}

/// More entries than are ever used: the first are zeros, those beyond are left
/// alone, whether the report is accepted or even the routine refused.
#[test]
fn buffers_beyond_the_limit() {
    for buffer in 0..5 {
        let mut lent = [16, 16, 16, 1, 1];
        lent[buffer] = MAX_ENTRIES + 5;
        assert_eq!(agreed(ROUTINE, REPORT, lent), bench_finding());
    }
    let all = [MAX_ENTRIES + 3; 5];
    assert_eq!(agreed(&[], REPORT, all), refused(1, 0));
}

/// A report of 16,777,216 bytes is looked at, a longer one is not.
#[test]
fn reports_at_the_limit() {
    let mut longest = REPORT.to_vec();
    longest.resize(MAX_REPORT, 0);
    let likeness = |first: &[u8], second: &[u8]| {
        let case = AlikeCase::of(&mut Rng::for_case(SEED, 1), ROUTINE, first, second);
        compare_alike(&case).unwrap_or_else(|report| panic!("{report}"))
    };
    assert_eq!(judged(ROUTINE, &longest), refused(24, 18));
    assert_eq!(likeness(&longest, REPORT), Verdict::Done(true));
    longest.push(0);
    let too_long = MAX_REPORT + 1;
    assert_eq!(judged(ROUTINE, &longest), refused(11, too_long));
    assert_eq!(likeness(&longest, REPORT), refused(11, too_long));
    assert_eq!(likeness(REPORT, &longest), refused(11, too_long));
}

/// A translation that takes all words that are ever used leaves none for a
/// step, and one that takes more does not fit, whatever is lent.
#[test]
fn translations_at_the_limit() {
    for (words, number) in [(MAX_ENTRIES, 25), (MAX_ENTRIES + 2, 16)] {
        let (routine, decisions) = routine_of(words);
        let mut report = [&[0, 0][..], &decisions].concat();
        // The index is the third parameter: 1 in one bit is -1.
        report.extend([0, 0, 1].iter().flat_map(|word: &u32| word.to_le_bytes()));
        // The step's first literal finds no room.
        let place = if number == 25 { report.len() } else { 0 };
        report.extend([1, 2, 0, 0, 0]);
        let lent = [MAX_ENTRIES + 9, MAX_ENTRIES, MAX_ENTRIES, 32, 32];
        assert_eq!(agreed(&routine, &report, lent), refused(number, place));
    }
}
