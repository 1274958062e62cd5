//! The space told of translations, held against numbers that are written here
//! and against translations into buffers of just as many entries as told, one
//! less and one more: this holds of the library whatever the oracle says.

use differential::rng::Rng;
use differential::translation_case::TranslationCase;
use differential::turned_down::turned_down;
use pellet::ANSWER_LEN;

const SEED: u64 = 0x50E1_1E7D_2026_0012;
/// So many cases are drawn to be translated around what is told of them.
const DRAWN: u64 = 1000;
/// Those that take more words are left out, for they take long.
const MOST_WORDS: u64 = 200_000;

/// What buffers are filled with: greater than any count, literal or offset.
const UNTOUCHED: u32 = 0xA5A5_A5A5;

type Lead<'a> = (u8, u8, &'a [u8]);

/// What the call returns, and its first three entries; the others stay.
fn space(routine: &[u8], (access, side, decisions): Lead) -> (u8, [u64; 3]) {
    let mut answer = [9; ANSWER_LEN];
    let status = pellet::space(routine, access, side, decisions, &mut answer);
    assert_eq!(answer[3..], [9; ANSWER_LEN - 3]);
    (status, [answer[0], answer[1], answer[2]])
}

/// One 8-bit parameter, one array of 100, one write at the parameter.
const WRITE_AT_PARAMETER: &[u8] = &[1, 1, 8, 1, 1, 100, 0, 0x0A, 0, 0, 0, 0];
/// One 1-bit variable set to 1, then a write at it into an array of 1.
const WRITE_AT_ONE_BIT: &[u8] = &[1, 1, 1, 0, 1, 1, 0, 0x01, 0, 1, 0, 0, 0, 0x0A, 0, 0, 0, 0];

/// Clauses, words and variables: the three clauses that are always there, and
/// for above eight bits of an adder. The bit that was left in a variable takes
/// one too, though it is in no clause.
#[test]
fn bench_routines() {
    for side in 0..2 {
        assert_eq!(space(WRITE_AT_ONE_BIT, (0, side, &[])), (0, [3, 6, 2]));
    }
    assert_eq!(space(WRITE_AT_PARAMETER, (0, 0, &[])), (0, [3, 6, 9]));
    assert_eq!(space(WRITE_AT_PARAMETER, (0, 1, &[])), (0, [115, 454, 33]));
}

/// An if with a bit changed in its first arm. Left free it takes an XOR and an
/// AND for the condition, an AND for each arm, a MUX and an AND behind it; a
/// decision takes one AND away.
#[test]
fn ifs() {
    let routine = [
        1, 2, 1, 1, 2, 1, 1, 0, // two 1-bit parameters, an array of 1
        0x0B, 0, 0, 1, 0x01, 0, 1, 0, 0, 0, 0x0C, 0x0D, 0x0A, 0, 0, 0, 0,
    ];
    assert_eq!(space(&routine, (0, 0, &[2])), (0, [23, 78, 9]));
    for decision in [0, 1] {
        assert_eq!(space(&routine, (0, 0, &[decision])), (0, [20, 68, 8]));
    }
}

/// A division takes 4 gates, which are 18 clauses and 72 words, for each of its
/// w times w + 1 bits, whatever it divides: parameters or what was left.
#[test]
fn divisions_at_every_width() {
    for width in 1..=32_u8 {
        for code in [0x0E, 0x0F] {
            for [d, s, t] in [[2, 0, 1], [0, 0, 1], [1, 0, 1], [0, 0, 0], [0, 0, 2]] {
                let header = [1, 3, width, width, width, 2, 1, 1, 0];
                let commands = [code, d, s, t, 0x0A, 0, d, 0, 0];
                let routine = [header.as_slice(), &commands].concat();
                let width = u64::from(width);
                let bits = width * (width + 1);
                let counts = [3 + 18 * bits, 6 + 72 * bits, 1 + 3 * width + 4 * bits];
                assert_eq!(space(&routine, (0, 0, &[])), (0, counts));
            }
        }
    }
}

/// Far more than any translation makes is told all the same: of 1,021 products
/// or divisions of 32 bits, and above for the index.
#[test]
fn longest_routines() {
    let product = [528 * 3 + 1024 * 14, 528 * 10 + 1024 * 56, 528 + 1024 * 3];
    let division = [1056 * 18, 1056 * 72, 1056 * 4];
    for (code, each) in [(0x05, product), (0x0E, division), (0x0F, division)] {
        let mut routine = vec![1, 1, 32, 1, 1, 1, 0];
        routine.extend([code, 0, 0, 0].repeat(1021));
        routine.extend([0x0A, 0, 0, 0, 0]);
        assert_eq!(routine.len(), 4096);
        let (frame, above) = ([3, 6, 33], [32 * 14, 32 * 56, 32 * 3]);
        let counts = [0, 1, 2].map(|k| frame[k] + 1021 * each[k] + above[k]);
        assert_eq!(space(&routine, (0, 1, &[])), (0, counts));
    }
}

#[test]
fn refusals_in_their_order() {
    for case in turned_down() {
        let got = space(&case.routine, (case.access, case.side, &case.decisions));
        let expected = (case.number, [case.place, 9, 9]);
        assert_eq!(got, expected, "{:02X?}", case.routine);
    }
}

/// Translates into buffers of so many entries and checks which were written.
fn translate(routine: &[u8], (access, side, decisions): Lead, lent: (u64, u64)) -> (u8, [u64; 3]) {
    let mut words = vec![UNTOUCHED; lent.0 as usize];
    let mut starts = vec![UNTOUCHED; lent.1 as usize];
    let mut answer = [9; ANSWER_LEN];
    let status = pellet::translate(
        routine,
        access,
        side,
        decisions,
        &mut words,
        &mut starts,
        &mut answer,
    );
    assert_eq!(answer[3..], [9; ANSWER_LEN - 3]);
    let written = match status {
        0 => (answer[1] as usize, answer[0] as usize),
        _ => (0, 0),
    };
    assert_written(&words, written.0);
    assert_written(&starts, written.1);
    (status, [answer[0], answer[1], answer[2]])
}

/// Just the first so many entries are not as they were.
fn assert_written(buffer: &[u32], count: usize) {
    let (written, others) = buffer.split_at(count);
    assert!(written.iter().all(|&entry| entry != UNTOUCHED));
    assert!(others.iter().all(|&entry| entry == UNTOUCHED));
}

/// Translates what was told of into words and starts that are each one entry
/// fewer than told, as many, and one more. Words are refused first.
fn translate_around(routine: &[u8], lead: Lead, told: [u64; 3]) {
    let [clauses, words, _] = told;
    for words_len in [words - 1, words, words + 1] {
        for starts_len in [clauses - 1, clauses, clauses + 1] {
            let expected = if words_len < words {
                (16, [0, 9, 9])
            } else if starts_len < clauses {
                (16, [1, 9, 9])
            } else {
                (0, told)
            };
            let got = translate(routine, lead, (words_len, starts_len));
            assert_eq!(got, expected, "{routine:02X?} {lead:?}");
        }
    }
}

/// The routines of examples/, each with its number of ifs.
const EXAMPLES: [(&[u8], usize); 6] = [
    (include_bytes!("../../../examples/bench.bin"), 0),
    (include_bytes!("../../../examples/bench/routine.bin"), 0),
    (
        include_bytes!("../../../examples/two-sensors/routine.bin"),
        3,
    ),
    (
        include_bytes!("../../../examples/sum-of-squares/routine.bin"),
        1,
    ),
    (
        include_bytes!("../../../examples/repeat-groups/routine.bin"),
        1,
    ),
    (
        include_bytes!("../../../examples/eight-branches/routine.bin"),
        8,
    ),
];

#[test]
fn examples_around_what_is_told() {
    for (routine, ifs) in EXAMPLES {
        for side in 0..2 {
            for decision in 0..3 {
                let decisions = vec![decision; ifs];
                let lead: Lead = (0, side, &decisions);
                let (status, told) = space(routine, lead);
                assert_eq!(status, 0);
                translate_around(routine, lead, told);
            }
        }
    }
}

#[test]
fn drawn_routines_around_what_is_told() {
    let mut translated = 0;
    for number in 0..DRAWN {
        let case = TranslationCase::draw(&mut Rng::for_case(SEED, number));
        let (routine, decisions) = (case.routine.slice(), case.decisions.slice());
        let lead: Lead = (case.access, case.side, decisions);
        let (status, told) = space(routine, lead);
        if status == 0 && told[1] <= MOST_WORDS {
            translate_around(routine, lead, told);
            translated += 1;
        }
    }
    // Most of them are accepted and not too long.
    assert!(translated * 2 > DRAWN, "{translated}");
}
