//! Variables that are no parameters begin with what the last pick left in them:
//! each has a word in the input list, behind the parameters' and before the
//! reads', and bits of its own in a translation. The numbers are worked out here
//! by hand, and both the library and the oracle are held against them.

use differential::case::Case;
use differential::compare::{compare, Verdict, Verdicts};
use differential::report_case::ReportCase;
use differential::report_compare::compare_report;
use differential::rng::Rng;
use differential::space_compare::compare_as_told;
use differential::translation_case::TranslationCase;
use oracle::exhaustive::{try_every_input, Tried};
use oracle::{Arm, Finding, Outcome, Refusal, Room, Run, Side};

const SEED: u64 = 0x50E1_1E7D_2026_0015;

fn agree(routine: &[u8], inputs: &[u32]) -> Verdicts {
    let case = Case::ample(&mut Rng::for_case(SEED, 0), routine, inputs);
    compare(&case).unwrap_or_else(|report| panic!("{report}"))
}

fn ran(routine: &[u8], inputs: &[u32]) -> Run {
    match agree(routine, inputs).run {
        Verdict::Done(run) => run,
        verdict => panic!("{routine:02X?} {inputs:?}: {verdict:?}"),
    }
}

fn refused<T>(number: u8, place: usize) -> Verdict<T> {
    Verdict::Refused(Refusal { number, place })
}

fn stopped(side: Side, index: i64) -> Outcome {
    Outcome::Stopped {
        access: 0,
        side,
        index,
    }
}

/// A header with these widths and one array.
fn header(widths: &[u8], parameters: u8, size: u8) -> Vec<u8> {
    let counts = [parameters, 1, size, 0];
    [&[1, widths.len() as u8], widths, &counts].concat()
}

fn routine(widths: &[u8], parameters: u8, commands: &[u8]) -> Vec<u8> {
    [&header(widths, parameters, 1), commands].concat()
}

/// 32 variables of all widths, in this order and in the other, with no commands:
/// the values are the words, however many are parameters.
#[test]
fn every_variable_begins_with_its_word() {
    let rising: Vec<u8> = (1..=32).collect();
    let falling: Vec<u8> = (1..=32).rev().collect();
    for widths in [rising, falling] {
        let most = |&width: &u8| u32::MAX >> (32 - width);
        let all: Vec<u32> = widths.iter().map(most).collect();
        for parameters in 0..=32 {
            let routine = routine(&widths, parameters, &[0]);
            assert_eq!(ran(&routine, &all).values, all);
            for position in 0..32 {
                let mut one = vec![0; 32];
                one[position] = all[position];
                assert_eq!(ran(&routine, &one).values, one);
            }
        }
    }
}

/// A write at each variable in turn, of which none is set, into an array of 100:
/// its own word is the index, and the others' do not matter.
#[test]
fn each_word_is_an_index() {
    for position in 0..5 {
        for parameters in 0..=5 {
            let header = header(&[8; 5], parameters, 100);
            let routine = [header, vec![0x0A, 0, position, 0, 0]].concat();
            for (word, others, outcome) in [
                (0, 200, Outcome::Ended),
                (99, 255, Outcome::Ended),
                (100, 0, stopped(Side::Above, 100)),
                (127, 1, stopped(Side::Above, 127)),
                (128, 0, stopped(Side::Below, -128)),
                (255, 99, stopped(Side::Below, -1)),
            ] {
                let mut words = [others; 5];
                words[usize::from(position)] = word;
                let run = ran(&routine, &words);
                assert_eq!((run.outcome, run.values), (outcome, words.to_vec()));
            }
        }
    }
}

/// Three variables and four reads, all at variable 0: the words 3 to 6 are
/// theirs, and those of variables 1 and 2 are lost. With an if before the last
/// two, one in each arm, the run ignores one of their words.
#[test]
fn words_of_reads_come_behind_all_variables() {
    let first = [0x09, 1, 0, 0, 0x09, 2, 0, 0];
    let second = [0x09, 2, 0, 0, 0x09, 1, 0, 0, 0];
    // If v0 = v0, v1 is read, else v2.
    let arms = [0x0B, 0, 0, 0, 0x09, 1, 0, 0, 0x0C, 0x09, 2, 0, 0, 0x0D, 0];
    let words = [0, 71, 72, 10, 11, 12, 13];
    for parameters in 0..=3 {
        let routine = |rest: &[u8]| routine(&[8; 3], parameters, &[&first, rest].concat());
        let run = ran(&routine(&second), &words);
        assert_eq!((run.outcome, run.values), (Outcome::Ended, vec![0, 13, 12]));
        let run = ran(&routine(&arms), &words);
        assert_eq!((run.trail, run.values), (vec![Arm::First], vec![0, 12, 11]));
        // Stopped at the first read, nothing is lost.
        let run = ran(&routine(&second), &[255, 71, 72, 10, 11, 12, 13]);
        assert_eq!(run.outcome, stopped(Side::Below, -1));
        assert_eq!(run.values, [255, 71, 72]);
    }
}

/// Of four variables and two reads: six words and no other number of them, that
/// of the parameters and the reads among those.
#[test]
fn as_many_words_as_variables_and_reads() {
    let commands = [0x09, 1, 0, 0, 0x09, 2, 0, 0, 0];
    for parameters in 0..=4 {
        let routine = routine(&[8; 4], parameters, &commands);
        for len in 0..=12 {
            let verdict = agree(&routine, &vec![0; len]).run;
            match len {
                6 => assert!(matches!(verdict, Verdict::Done(_))),
                _ => assert_eq!(verdict, refused(9, len)),
            }
        }
    }
}

/// Variables of 1 to 4 bits and reads into the last two: the first word that is
/// too great is told by its number, behind it others that are.
#[test]
fn words_too_great_by_their_numbers() {
    let commands = [0x09, 2, 0, 0, 0x09, 3, 0, 0, 0];
    let widths = [1, 2, 3, 4, 3, 4];
    for parameters in 0..=4 {
        let routine = routine(&[1, 2, 3, 4], parameters, &commands);
        for first in 0..6 {
            let word = |k: usize| (1 << widths[k]) - u32::from(k < first);
            let words: Vec<u32> = (0..6).map(word).collect();
            assert_eq!(agree(&routine, &words).run, refused(10, first));
        }
        assert_eq!(ran(&routine, &[0, 3, 7, 15, 6, 14]).values, [0, 3, 6, 14]);
    }
}

/// What the library translates access 0 or 1 into, and its variables.
fn translated(routine: &[u8], lead: (u8, u8, &[u8])) -> (Vec<u32>, u64) {
    let rng = &mut Rng::for_case(SEED, 1);
    let case = TranslationCase::lending(rng, routine, lead, (200, 60));
    let both = compare_as_told(&case).unwrap_or_else(|report| panic!("{report}"));
    let translated = both.translated;
    assert_eq!(translated.status, 0);
    let answer = translated.answer.slice();
    let words = translated.words.slice()[..answer[1] as usize].to_vec();
    (words, answer[2])
}

/// A 1-bit variable, and a 2-bit one that is the index: variable 2 is the bit of
/// the first, 3 and 4 are those of the second. Below is its top bit, without a
/// gate. For above, 1 is taken from the index, whose top bit is turned: the
/// opposite bits of 1 with its own top turned are 3 and 3.
#[test]
fn index_that_was_left_to_the_last_word() {
    let above = [
        [1, 2].as_slice(),
        &[3, 11, 6, 3, 3, 11, 7, 2, 3, 10, 7, 3, 3, 10, 6, 2], // 5 = XOR(3, false)
        &[3, 13, 10, 2, 3, 13, 11, 3, 3, 12, 11, 2, 3, 12, 10, 3], // 6 = XOR(5, true)
        &[3, 7, 2, 14, 3, 7, 3, 14, 3, 2, 3, 14],              // 7 = MAJ(3, false, true)
        &[3, 6, 3, 15, 3, 6, 2, 15, 3, 3, 2, 15],
        &[3, 17, 9, 3, 3, 17, 8, 2, 3, 16, 8, 3, 3, 16, 9, 2], // 8 = XOR(-4, false)
        &[3, 19, 16, 14, 3, 19, 17, 15, 3, 18, 17, 14, 3, 18, 16, 15], // 9 = XOR(8, 7)
        &[3, 8, 2, 20, 3, 8, 15, 20, 3, 2, 15, 20],            // 10 = MAJ(-4, false, 7)
        &[3, 9, 3, 21, 3, 9, 14, 21, 3, 3, 14, 21],
        &[1, 2, 1, 21], // arrival, and not above
    ]
    .concat();
    for parameters in 0..=2 {
        let routine = routine(&[1, 2], parameters, &[0x0A, 0, 1, 0, 0]);
        let below = vec![1, 2, 1, 2, 1, 9];
        assert_eq!(translated(&routine, (0, 0, &[])), (below, 4));
        assert_eq!(translated(&routine, (0, 1, &[])), (above.clone(), 10));
    }
}

/// Two 1-bit variables with the bits 2 and 3. A read into the first, at the
/// second, makes its two gates, 4 and 5, and then the bit that is read, 6. A
/// 1-bit index is never above 0.
#[test]
fn bits_of_reads_come_behind_all_variables() {
    let expected = [
        [1, 2].as_slice(),
        &[2, 9, 7, 2, 9, 2, 3, 8, 6, 3],    // 4 = AND(-3, true)
        &[2, 11, 2, 2, 11, 8, 3, 10, 3, 9], // 5 = AND(true, 4)
        &[1, 10, 1, 13],                    // arrival, and not 6
    ]
    .concat();
    for parameters in 0..=2 {
        let commands = [0x09, 0, 0, 1, 0x0A, 0, 0, 0, 0];
        let routine = routine(&[1, 1], parameters, &commands);
        assert_eq!(translated(&routine, (1, 0, &[])), (expected.clone(), 6));
    }
}

/// The same two variables, and an if that copies the second into the first:
/// behind it the first has a gate of both bits, and the second its own.
#[test]
fn bits_that_were_left_are_joined() {
    let expected = [
        [1, 2].as_slice(),
        &[3, 9, 4, 4, 3, 9, 5, 5, 3, 8, 5, 4, 3, 8, 4, 5], // 4 = XOR(2, 2)
        &[2, 11, 2, 2, 11, 9, 3, 10, 3, 8],                // 5 = AND(true, -4)
        &[2, 13, 2, 2, 13, 10, 3, 12, 3, 11],              // 6 = AND(true, 5)
        &[2, 15, 2, 2, 15, 11, 3, 14, 3, 10],              // 7 = AND(true, -5)
        &[3, 11, 7, 16, 3, 11, 6, 17, 3, 10, 5, 16, 3, 10, 4, 17], // 8 = MUX(5, 3, 2)
        &[2, 19, 13, 2, 19, 15, 3, 18, 12, 14],            // 9 = AND(-6, -7)
    ]
    .concat();
    for parameters in 0..=2 {
        let commands = [0x0B, 0, 0, 0, 0x02, 0, 1, 0x0C, 0x0D];
        for (index, opposite) in [(0, 17), (1, 7)] {
            let access = [0x0A, 0, index, 0, 0];
            let routine = routine(&[1, 1], parameters, &[&commands[..], &access].concat());
            let expected = [&expected[..], &[1, 19, 1, opposite]].concat();
            assert_eq!(translated(&routine, (0, 0, &[2])), (expected, 9));
        }
    }
}

/// With what the judging program of the bench section lends.
fn judged(routine: &[u8], report: &[u8]) -> Verdict<Finding> {
    let room = Room {
        words: 16_384,
        starts: 16_384,
        marks: 16_384,
        values: 32,
        trail: 32,
    };
    let case = ReportCase::lending(&mut Rng::for_case(SEED, 2), routine, report, room);
    compare_report(&case).unwrap_or_else(|report| panic!("{report}"))
}

fn finding(hints: usize) -> Verdict<Finding> {
    Verdict::Done(Finding {
        access: 0,
        side: Side::Below,
        array: 0,
        size: 1,
        index: -1,
        steps: 1,
        hints,
    })
}

fn hints(numbers: &[u8]) -> Vec<u8> {
    let hint = |&number: &u8| [2, number, 0, 0, 0];
    numbers.iter().flat_map(hint).collect()
}

/// The second routine of the bench section: its report has an input word 0,
/// which may as well be 1, and may not be 2 or missing.
#[test]
fn second_bench_example() {
    let routine = routine(&[1], 0, &[0x01, 0, 1, 0, 0, 0, 0x0A, 0, 0, 0, 0]);
    let report = [0, 0, 0, 0, 0, 0, 2, 0, 0, 0, 0, 2, 2, 0, 0, 0, 3, 0];
    assert_eq!(judged(&routine, &report), finding(2));
    for leftover in [0, 1] {
        let with = |numbers: &[u8]| {
            let lead = [0, 0, leftover, 0, 0, 0];
            [&lead, &hints(numbers)[..], &[3, 0]].concat()
        };
        assert_eq!(judged(&routine, &with(&[0, 2])), finding(2));
        assert_eq!(judged(&routine, &with(&[0, 1])), refused(20, 11));
        assert_eq!(judged(&routine, &with(&[0, 2, 1])), refused(22, 16));
        assert_eq!(judged(&routine, &with(&[0, 2])[..17]), refused(17, 17));
    }
    // The report as it was before each variable had a word.
    let without = [&report[..2], &report[6..]].concat();
    assert_eq!(judged(&routine, &without), refused(10, 0));
    for len in 0..6 {
        assert_eq!(judged(&routine, &report[..len]), refused(11, len));
    }
}

/// Two 1-bit variables, of which the second, a leftover, is set to 0 or not; if
/// they differ, a write at the first.
fn write_where_they_differ(before: &[u8]) -> Vec<u8> {
    let guarded = [0x0B, 1, 0, 1, 0x0A, 0, 0, 0, 0x0C, 0x0D, 0];
    routine(&[1, 1], 1, &[before, &guarded].concat())
}

/// The lists on which the write is come to, with whether it is below.
fn arriving(routine: &[u8]) -> Vec<(Vec<u32>, bool)> {
    let tried = try_every_input(routine, (0, 0, &[0])).expect("a narrow routine");
    assert_eq!(tried.len(), 4);
    let arriving = tried.into_iter().filter(|tried| tried.arrives);
    let pair = |tried: Tried| (tried.inputs, tried.is_on_side);
    arriving.map(pair).collect()
}

/// Set to 0, what differs from it is -1, and that is a finding. By the clauses:
/// 11 is the arrival, 12 that variable 2 is false, 9 and 7 go back to the
/// relation's gate, and clause 1, {9, 4, 3}, says that the bits are then equal.
///
/// Not set, a 1 may have been left, and 0 differs from it: no finding any more,
/// though with a 0 left it was one. Clause 1 is then {9, 4, 6}, and makes
/// variable 3 true where there was a conflict.
#[test]
fn finding_that_takes_a_leftover_for_zero_is_none() {
    let set = write_where_they_differ(&[0x01, 1, 0, 0, 0, 0]);
    let left = write_where_they_differ(&[]);
    assert_eq!(
        arriving(&set),
        [(vec![1, 0], true), (vec![1, 1], true)],
        "set"
    );
    assert_eq!(
        arriving(&left),
        [(vec![1, 0], true), (vec![0, 1], false)],
        "left"
    );
    let report = |words: [u8; 2]| {
        let lead = [0, 0, 0, words[0], 0, 0, 0, words[1], 0, 0, 0];
        [&lead, &hints(&[0, 11, 12, 9, 7, 1])[..], &[3, 0]].concat()
    };
    assert_eq!(judged(&set, &report([1, 0])), finding(6));
    assert_eq!(judged(&set, &report([1, 1])), finding(6));
    assert_eq!(judged(&left, &report([1, 0])), refused(21, 11 + 30));
    // As witnesses the other lists do not do: two go the other way, one is
    // inside.
    assert_eq!(judged(&left, &report([1, 1])), refused(13, 0));
    assert_eq!(judged(&left, &report([0, 0])), refused(13, 0));
    assert_eq!(judged(&left, &report([0, 1])), refused(15, 0));
}
