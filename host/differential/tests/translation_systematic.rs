//! Translations gone through one after the other: the worked examples with
//! their clauses written out, every circuit at every width, every length of
//! buffers that is too short, and the most words that are ever used. Each is
//! also asked for its space beforehand and held against what is told.

use differential::compare::Verdict;
use differential::limit::routine_of;
use differential::plan::OPERATIONS;
use differential::rng::Rng;
use differential::space_compare::compare_as_told;
use differential::translation_case::TranslationCase;
use differential::turned_down::{turned_down, IF_AND_ACCESS};
use oracle::{Refusal, Translation, MAX_ENTRIES};
use pellet::ANSWER_LEN;

const SEED: u64 = 0x50E1_1E7D_2026_0005;

type Lead<'a> = (u8, u8, &'a [u8]);

fn agree(rng: &mut Rng, routine: &[u8], lead: Lead, lent: (usize, usize)) -> Verdict<Translation> {
    let case = TranslationCase::lending(rng, routine, lead, lent);
    match compare_as_told(&case) {
        Ok(both) => both.translated.verdict,
        Err(report) => panic!("{report}"),
    }
}

fn agree_exactly(rng: &mut Rng, routine: &[u8], lead: Lead) {
    let (access, side, decisions) = lead;
    let lent = match oracle::measure(routine, access, side, decisions) {
        Ok(translation) => (translation.words, translation.clauses),
        Err(_) => (10, 10),
    };
    agree(rng, routine, lead, lent);
}

fn too_small(buffer: usize) -> Verdict<Translation> {
    let refusal = Refusal {
        number: 16,
        place: buffer,
    };
    Verdict::Refused(refusal)
}

/// One 1-bit variable set to 1, then a write at it into an array of 1.
const WRITE_AT_ONE_BIT: &[u8] = &[1, 1, 1, 0, 1, 1, 0, 0x01, 0, 1, 0, 0, 0, 0x0A, 0, 0, 0, 0];

/// Held against the numbers written here, whatever the oracle says.
#[test]
fn bench_routine() {
    let (mut words, mut starts, mut answer) = ([9; 8], [9; 5], [9; ANSWER_LEN]);
    for (side, last) in [(0, 3), (1, 2)] {
        let lent = (&mut words[..], &mut starts[..], &mut answer[..]);
        let status = pellet::translate(WRITE_AT_ONE_BIT, 0, side, &[], lent.0, lent.1, lent.2);
        assert_eq!(status, 0);
        assert_eq!(words, [1, 2, 1, 2, 1, last, 9, 9]);
        assert_eq!(starts, [0, 2, 4, 9, 9]);
        // Variable 2 is what was left, and in no clause.
        assert_eq!(answer[..3], [3, 6, 2]);
        assert_eq!(answer[3..], [9; ANSWER_LEN - 3]);
    }
}

/// An if that is free, with a bit changed in its first arm, to the last word.
#[test]
fn free_if() {
    let routine = [
        1, 2, 1, 1, 2, 1, 1, 0, // two 1-bit parameters, an array of 1
        0x0B, 0, 0, 1, 0x01, 0, 1, 0, 0, 0, 0x0C, 0x0D, 0x0A, 0, 0, 0, 0,
    ];
    let expected = [
        [1, 2].as_slice(),
        &[3, 9, 4, 6, 3, 9, 5, 7, 3, 8, 5, 6, 3, 8, 4, 7], // 4 = XOR(2, 3)
        &[2, 11, 2, 2, 11, 9, 3, 10, 3, 8],                // 5 = AND(true, -4)
        &[2, 13, 2, 2, 13, 10, 3, 12, 3, 11],              // 6 = AND(true, 5)
        &[2, 15, 2, 2, 15, 11, 3, 14, 3, 10],              // 7 = AND(true, -5)
        &[3, 11, 3, 16, 3, 11, 2, 17, 3, 10, 5, 16, 3, 10, 4, 17], // 8 = MUX(5, true, 2)
        &[2, 19, 13, 2, 19, 15, 3, 18, 12, 14],            // 9 = AND(-6, -7)
        &[1, 19, 1, 17],                                   // -9 and not 8
    ]
    .concat();
    let mut words = vec![0; expected.len()];
    let (mut starts, mut answer) = ([0; 23], [0; ANSWER_LEN]);
    let status = pellet::translate(&routine, 0, 0, &[2], &mut words, &mut starts, &mut answer);
    assert_eq!(status, 0);
    assert_eq!(words, expected);
    assert_eq!(answer[..3], [23, expected.len() as u64, 9]);
    assert_eq!(starts[..7], [0, 2, 6, 10, 14, 18, 21]);
}

/// Numbers and places written out, each refusal with later ones in waiting: the
/// buffers last of all.
#[test]
fn refusals_in_their_order() {
    let refused = |routine: &[u8], (access, side, decisions): Lead, lent: (usize, usize)| {
        let (mut words, mut starts, mut answer) = ([9; 64], [9; 64], [9; ANSWER_LEN]);
        let lent = (&mut words[..lent.0], &mut starts[..lent.1]);
        let status = pellet::translate(
            routine,
            access,
            side,
            decisions,
            lent.0,
            lent.1,
            &mut answer,
        );
        assert_eq!((words, starts), ([9; 64], [9; 64]));
        assert_eq!(answer[1..], [9; ANSWER_LEN - 1]);
        (status, answer[0])
    };
    for case in turned_down() {
        let lead: Lead = (case.access, case.side, &case.decisions);
        let got = refused(&case.routine, lead, (0, 0));
        assert_eq!(got, (case.number, case.place), "{:02X?}", case.routine);
    }
    assert_eq!(refused(IF_AND_ACCESS, (0, 1, &[2]), (0, 0)), (16, 0));
    assert_eq!(refused(WRITE_AT_ONE_BIT, (0, 0, &[]), (5, 0)), (16, 0));
    assert_eq!(refused(WRITE_AT_ONE_BIT, (0, 0, &[]), (6, 2)), (16, 1));
}

#[test]
fn operations_at_every_width() {
    let rng = &mut Rng::for_case(SEED, 0);
    for width in 1..=32 {
        for code in OPERATIONS {
            // The last variable is no parameter: its bits are those left, or of
            // 0 where it is set.
            for [d, s, t] in [
                [2, 0, 1],
                [0, 0, 1],
                [1, 0, 1],
                [0, 0, 0],
                [0, 0, 2],
                [2, 2, 0],
            ] {
                for before in [[].as_slice(), &[0x01, 2, 0, 0, 0, 0]] {
                    let header = [1, 3, width, width, width, 2, 1, 1, 0];
                    let commands = [code, d, s, t, 0x0A, 0, d, 0, 0];
                    let routine = [header.as_slice(), before, &commands].concat();
                    for side in 0..2 {
                        agree_exactly(rng, &routine, (0, side, &[]));
                    }
                }
            }
        }
    }
}

/// Held against the numbers written here, whatever the oracle says: a division
/// takes 4 gates, which are 18 clauses and 72 words, for each of its w times
/// w + 1 bits.
#[test]
fn counts_of_divisions() {
    for width in 1..=32_u8 {
        for code in [0x0E, 0x0F] {
            for [d, s, t] in [[2, 0, 1], [0, 0, 1], [1, 0, 1], [0, 0, 0], [0, 0, 2]] {
                let header = [1, 3, width, width, width, 2, 1, 1, 0];
                let commands = [code, d, s, t, 0x0A, 0, d, 0, 0];
                let routine = [header.as_slice(), &commands].concat();
                let (mut words, mut starts) = (vec![0; 80_000], vec![0; 20_000]);
                let mut answer = [9; ANSWER_LEN];
                let lent = (&mut words[..], &mut starts[..]);
                let status = pellet::translate(&routine, 0, 0, &[], lent.0, lent.1, &mut answer);
                assert_eq!(status, 0);
                let width = u64::from(width);
                let bits = width * (width + 1);
                let counts = [3 + 18 * bits, 6 + 72 * bits, 1 + 3 * width + 4 * bits];
                assert_eq!(answer[..3], counts);
            }
        }
    }
}

/// Quotient and remainder of two 1-bit parameters, to the last word. Variable 4
/// is what was left in the third, before it is set.
#[test]
fn one_bit_divisions() {
    let gates = [
        [1, 2].as_slice(),
        &[3, 11, 4, 7, 3, 11, 5, 6, 3, 10, 5, 7, 3, 10, 4, 6], // 5 = XOR(2, -3)
        &[3, 13, 10, 2, 3, 13, 11, 3, 3, 12, 11, 2, 3, 12, 10, 3], // 6 = XOR(5, true)
        &[3, 5, 6, 14, 3, 5, 3, 14, 3, 6, 3, 14],              // 7 = MAJ(2, -3, true)
        &[3, 4, 7, 15, 3, 4, 2, 15, 3, 7, 2, 15],
        &[3, 17, 3, 2, 3, 17, 2, 3, 3, 16, 2, 2, 3, 16, 3, 3], // 8 = XOR(false, true)
        &[3, 19, 16, 14, 3, 19, 17, 15, 3, 18, 17, 14, 3, 18, 16, 15], // 9 = XOR(8, 7)
        &[3, 2, 3, 20, 3, 2, 15, 20, 3, 3, 15, 20],            // 10 = MAJ(false, true, 7)
        &[3, 3, 2, 21, 3, 3, 14, 21, 3, 2, 14, 21],
        &[3, 21, 13, 22, 3, 21, 12, 23, 3, 20, 5, 22, 3, 20, 4, 23], // 11 = MUX(10, 6, 2)
        &[3, 21, 19, 24, 3, 21, 18, 25, 3, 20, 2, 24, 3, 20, 3, 25], // 12 = MUX(10, 9, false)
    ]
    .concat();
    for (code, opposite) in [(0x0E, 21), (0x0F, 23)] {
        let routine = [1, 3, 1, 1, 1, 2, 1, 1, 0, code, 2, 0, 1, 0x0A, 0, 2, 0, 0];
        let expected = [gates.as_slice(), &[1, 2, 1, opposite]].concat();
        let mut words = vec![0; expected.len()];
        let (mut starts, mut answer) = ([0; 39], [0; ANSWER_LEN]);
        let status = pellet::translate(&routine, 0, 0, &[], &mut words, &mut starts, &mut answer);
        assert_eq!(status, 0);
        assert_eq!(words, expected);
        assert_eq!(answer[..3], [39, expected.len() as u64, 12]);
    }
}

/// Each relation, with every decision and the access before, in either arm of
/// and behind the if.
#[test]
fn relations_at_every_width() {
    let rng = &mut Rng::for_case(SEED, 1);
    for width in 1..=32 {
        for relation in 0..10 {
            let header = [1, 2, width, width, 2, 1, 2, 0];
            let commands = [
                [0x0A, 0, 1, 0].as_slice(),
                &[0x0B, relation, 0, 1],
                &[0x09, 0, 0, 1, 0x0C, 0x03, 1, 0, 1, 0x0A, 0, 0, 0, 0x0D],
                &[0x0A, 0, 0, 1, 0],
            ]
            .concat();
            let routine = [header.as_slice(), &commands].concat();
            for (access, decision) in [(0, 0), (1, 0), (2, 0), (3, 0), (1, 1), (3, 1), (3, 2)] {
                agree_exactly(rng, &routine, (access, 1, &[decision]));
            }
        }
    }
}

#[test]
fn changes_of_width() {
    let rng = &mut Rng::for_case(SEED, 2);
    for from in 1..=32 {
        for to in 1..=32 {
            for code in [0x02, 0x06, 0x07, 0x08] {
                let header = [1, 2, from, to, 1, 1, 1, 0];
                let routine = [header.as_slice(), &[code, 1, 0, 0x0A, 0, 1, 0, 0]].concat();
                agree_exactly(rng, &routine, (0, 1, &[]));
            }
        }
    }
}

/// Sizes around the greatest number an index of each width can be, at the named
/// access and at one before it.
#[test]
fn sizes_at_every_width() {
    let rng = &mut Rng::for_case(SEED, 3);
    for width in 1..=32_u8 {
        let half = 1_u32 << (width - 1).min(13);
        for size in [1, half - 1, half, half + 1, 4095, 4096] {
            let size = size.clamp(1, 4096) as u16;
            let [low, high] = size.to_le_bytes();
            let header = [1, 2, width, 32, 1, 1, low, high];
            let routine = [header.as_slice(), &[0x09, 1, 0, 0, 0x0A, 0, 0, 1, 0]].concat();
            for (access, side) in [(0, 0), (0, 1), (1, 0), (1, 1)] {
                agree_exactly(rng, &routine, (access, side, &[]));
            }
        }
    }
}

/// Every length of words and of starts below what is needed.
#[test]
fn every_length_that_is_too_short() {
    let rng = &mut Rng::for_case(SEED, 4);
    let routine = [
        1, 2, 2, 2, 1, 1, 1, 0, 0x03, 1, 0, 0, 0x09, 0, 0, 1, 0x0A, 0, 0, 1, 0,
    ];
    let lead: Lead = (1, 1, &[]);
    let translation = oracle::measure(&routine, 1, 1, &[]).expect("accepted");
    let (words, starts) = (translation.words, translation.clauses);
    for short in 0..words {
        assert_eq!(agree(rng, &routine, lead, (short, starts)), too_small(0));
        assert_eq!(agree(rng, &routine, lead, (short, 0)), too_small(0));
    }
    for short in 0..starts {
        assert_eq!(agree(rng, &routine, lead, (words, short)), too_small(1));
    }
    assert_eq!(
        agree(rng, &routine, lead, (words, starts)),
        Verdict::Done(translation)
    );
}

/// Numbers of words on both sides of the most that are used. All are told
/// beforehand, and where they are no more than that, buffers of as many entries
/// as told suffice.
#[test]
fn around_the_most_words() {
    let rng = &mut Rng::for_case(SEED, 5);
    for words in (MAX_ENTRIES - 2..=MAX_ENTRIES + 2).step_by(2) {
        let (routine, decisions) = routine_of(words);
        let lead: Lead = (0, 0, &decisions);
        let translation = oracle::measure(&routine, 0, 0, &decisions).expect("accepted");
        assert_eq!(translation.words, words);
        let starts = translation.clauses;
        let mut answer = [9; ANSWER_LEN];
        assert_eq!(pellet::space(&routine, 0, 0, &decisions, &mut answer), 0);
        let counts = [starts, words, translation.variables].map(|count| count as u64);
        assert_eq!(answer[..3], counts);
        let expected = match words > MAX_ENTRIES {
            true => too_small(0),
            false => Verdict::Done(translation),
        };
        for lent in [(words, starts), (MAX_ENTRIES + 9, starts)] {
            assert_eq!(agree(rng, &routine, lead, lent), expected);
        }
    }
}

/// With two words more than are used, buffers of twice the most do not suffice.
#[test]
fn no_buffer_is_large_enough() {
    let (routine, decisions) = routine_of(MAX_ENTRIES + 2);
    let (mut words, mut starts) = (vec![9; 2 * MAX_ENTRIES], vec![9; 2 * MAX_ENTRIES]);
    let mut answer = [9; ANSWER_LEN];
    let lent = (&mut words[..], &mut starts[..]);
    let status = pellet::translate(&routine, 0, 0, &decisions, lent.0, lent.1, &mut answer);
    assert_eq!((status, answer[0]), (16, 0));
    assert_eq!(answer[1..], [9; ANSWER_LEN - 1]);
    assert!(words.iter().chain(&starts).all(|&entry| entry == 9));
}

#[test]
fn one_entry_short_of_the_most_words() {
    let rng = &mut Rng::for_case(SEED, 6);
    let (routine, decisions) = routine_of(MAX_ENTRIES);
    let lead: Lead = (0, 0, &decisions);
    let translation = oracle::measure(&routine, 0, 0, &decisions).expect("accepted");
    let (words, starts) = (translation.words, translation.clauses);
    assert_eq!(
        agree(rng, &routine, lead, (words - 1, starts)),
        too_small(0)
    );
    assert_eq!(
        agree(rng, &routine, lead, (words, starts - 1)),
        too_small(1)
    );
}

/// Some 64 and 78 million words: more than four times the most that are used.
#[test]
fn longest_routines() {
    let rng = &mut Rng::for_case(SEED, 7);
    for code in [0x05, 0x0E] {
        let mut routine = vec![1, 1, 32, 1, 1, 1, 0];
        routine.extend([code, 0, 0, 0].repeat(1021));
        routine.extend([0x0A, 0, 0, 0, 0]);
        let lent = (MAX_ENTRIES, MAX_ENTRIES);
        assert_eq!(agree(rng, &routine, (0, 1, &[]), lent), too_small(0));
    }
}
