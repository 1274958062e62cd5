//! The worked examples, with their results written out: these hold of the
//! library whatever the oracle says.

use pellet::ANSWER_LEN;

const UNTOUCHED: u64 = 0xA5A5_A5A5_A5A5_A5A5;
const UNTOUCHED_VALUE: u32 = 0xA5A5_A5A5;
const UNTOUCHED_BYTE: u8 = 0xA5;

/// One 8-bit parameter, one array of 100, one write at the parameter.
const WRITE_AT_PARAMETER: &[u8] = &[1, 1, 8, 1, 1, 100, 0, 0x0A, 0, 0, 0, 0];
/// One 1-bit variable set to 1, then a write at it into an array of 1.
const WRITE_AT_ONE_BIT: &[u8] = &[1, 1, 1, 0, 1, 1, 0, 0x01, 0, 1, 0, 0, 0, 0x0A, 0, 0, 0, 0];

fn check(routine: &[u8]) -> (u8, [u64; ANSWER_LEN]) {
    let mut answer = [UNTOUCHED; ANSWER_LEN];
    let status = pellet::check(routine, &mut answer);
    (status, answer)
}

struct Ran {
    status: u8,
    answer: [u64; ANSWER_LEN],
    values: [u32; 4],
    trail: [u8; 4],
}

fn run(routine: &[u8], inputs: &[u32]) -> Ran {
    let mut ran = Ran {
        status: 0,
        answer: [UNTOUCHED; ANSWER_LEN],
        values: [UNTOUCHED_VALUE; 4],
        trail: [UNTOUCHED_BYTE; 4],
    };
    ran.status = pellet::run(
        routine,
        inputs,
        &mut ran.values,
        &mut ran.trail,
        &mut ran.answer,
    );
    ran
}

/// An answer with these first entries and the rest left alone.
fn answer(first: &[u64]) -> [u64; ANSWER_LEN] {
    let mut answer = [UNTOUCHED; ANSWER_LEN];
    answer[..first.len()].copy_from_slice(first);
    answer
}

/// Values with these first entries and the rest left alone.
fn values(first: &[u32]) -> [u32; 4] {
    let mut values = [UNTOUCHED_VALUE; 4];
    values[..first.len()].copy_from_slice(first);
    values
}

/// A trail with these first entries and the rest left alone.
fn trail(first: &[u8]) -> [u8; 4] {
    let mut trail = [UNTOUCHED_BYTE; 4];
    trail[..first.len()].copy_from_slice(first);
    trail
}

fn assert_refused(routine: &[u8], number: u8, place: u64) {
    assert_eq!(check(routine), (number, answer(&[place])), "{routine:02X?}");
    let ran = run(routine, &[]);
    assert_eq!((ran.status, ran.answer), (number, answer(&[place])));
    assert_eq!((ran.values, ran.trail), (values(&[]), trail(&[])));
}

#[test]
fn counts_of_the_bench_routines() {
    let counts = answer(&[1, 1, 1, 0, 1, 0, 7]);
    assert_eq!(check(WRITE_AT_PARAMETER), (0, counts));
    let counts = answer(&[1, 0, 1, 0, 1, 0, 7]);
    assert_eq!(check(WRITE_AT_ONE_BIT), (0, counts));
}

#[test]
fn runs_of_the_bench_routines() {
    let expected: [(u32, &[u64]); 6] = [
        (0, &[0]),
        (99, &[0]),
        (100, &[1, 0, 1, 0, 100]),
        (127, &[1, 0, 1, 0, 127]),
        (128, &[1, 0, 0, 1, 128]),
        (255, &[1, 0, 0, 1, 1]),
    ];
    for (word, first) in expected {
        let ran = run(WRITE_AT_PARAMETER, &[word]);
        assert_eq!((ran.status, ran.answer), (0, answer(first)));
        assert_eq!((ran.values, ran.trail), (values(&[word]), trail(&[])));
    }
    // Whatever the last pick left in the variable.
    for leftover in [0, 1] {
        let ran = run(WRITE_AT_ONE_BIT, &[leftover]);
        assert_eq!((ran.status, ran.answer), (0, answer(&[1, 0, 0, 1, 1])));
        assert_eq!((ran.values, ran.trail), (values(&[1]), trail(&[])));
    }
}

/// The result's variable is no parameter, and what it begins with is lost.
#[test]
fn arithmetic_of_the_bench() {
    for (code, a, b, result) in [(3, 200, 100, 44), (4, 0, 1, 255), (5, 16, 16, 0)] {
        let ran = run(&[1, 3, 8, 8, 8, 2, 0, code, 2, 0, 1, 0], &[a, b, 77]);
        assert_eq!((ran.status, ran.answer), (0, answer(&[0])));
        assert_eq!(ran.values, values(&[a, b, result]));
    }
    let sign_extended = run(&[1, 2, 4, 8, 1, 0, 0x08, 1, 0, 0], &[8, 77]);
    assert_eq!(sign_extended.values, values(&[8, 248]));
    let cut = run(&[1, 2, 9, 8, 1, 0, 0x06, 1, 0, 0], &[500, 77]);
    assert_eq!(cut.values, values(&[500, 244]));
    for (relation, arm) in [(6, 0), (2, 1)] {
        let routine = [1, 2, 8, 8, 2, 0, 0x0B, relation, 0, 1, 0x0C, 0x0D, 0];
        assert_eq!(run(&routine, &[128, 127]).trail, trail(&[arm]));
    }
}

/// A divisor of zero gives all ones and the dividend.
#[test]
fn divisions() {
    for (a, b, quotient, remainder) in [
        (200, 60, 3, 20),
        (60, 200, 0, 60),
        (200, 200, 1, 0),
        (200, 1, 200, 0),
        (200, 0, 255, 200),
        (0, 0, 255, 0),
    ] {
        for (code, result) in [(0x0E, quotient), (0x0F, remainder)] {
            let ran = run(&[1, 3, 8, 8, 8, 2, 0, code, 2, 0, 1, 0], &[a, b, 77]);
            assert_eq!((ran.status, ran.answer), (0, answer(&[0])));
            assert_eq!(ran.values, values(&[a, b, result]));
        }
    }
}

#[test]
fn refusals_of_routines() {
    assert_refused(&[], 1, 0);
    assert_refused(&[0; 5000], 1, 0);
    assert_refused(&[1], 2, 1);
    assert_refused(&[1, 3, 0x21], 2, 2);
    assert_refused(&[1, 1, 8, 0, 1, 0x64], 2, 5);
    assert_refused(&[1, 1, 8, 2, 0, 0], 2, 3);
    assert_refused(&[1, 1, 8, 0, 0], 3, 5);
    assert_refused(&[1, 1, 8, 0, 0, 0x02, 9], 3, 5);
    assert_refused(&[1, 1, 8, 0, 0, 0x0E, 9, 9], 3, 5);
    assert_refused(&[1, 1, 8, 0, 0, 0x10, 0, 0, 0, 0], 3, 5);
    assert_refused(&[1, 1, 8, 0, 0, 0x0B, 0, 0, 0], 3, 9);
    assert_refused(&[1, 1, 8, 0, 0, 0x01, 0, 0, 1, 0, 0, 0], 4, 5);
    assert_refused(&[1, 1, 8, 0, 0, 0x0A, 0, 0, 0, 0], 4, 5);
    assert_refused(&[1, 1, 8, 0, 0, 0x0F, 0, 0, 1, 0], 4, 5);
    assert_refused(&[1, 1, 8, 0, 0, 0x0B, 10, 0, 0, 0x0C, 0x0D, 0], 4, 5);
    assert_refused(&[1, 2, 8, 4, 0, 0, 0x02, 0, 1, 0], 5, 6);
    assert_refused(&[1, 2, 8, 4, 0, 0, 0x0E, 0, 0, 1, 0], 5, 6);
    assert_refused(&[1, 1, 8, 0, 0, 0x0B, 0, 0, 0, 0x00], 6, 9);
    assert_refused(&[1, 1, 8, 0, 0, 0x0B, 0, 0, 0, 0x0D, 0], 6, 9);
    assert_refused(&[1, 1, 8, 0, 0, 0x0B, 0, 0, 0, 0x0C, 0x0C], 6, 10);
    assert_refused(&[1, 1, 8, 0, 0, 0x00, 0x00], 8, 6);
}

#[test]
fn refusals_of_ifs_and_accesses() {
    let header: &[u8] = &[1, 1, 8, 0, 1, 1, 0];
    let head: &[u8] = &[0x0B, 0, 0, 0];
    let empty_if: &[u8] = &[0x0B, 0, 0, 0, 0x0C, 0x0D];
    assert_refused(&[header, &head.repeat(9)].concat(), 6, 7 + 8 * 4);
    let ifs = [header, &empty_if.repeat(33), &[0]].concat();
    assert_refused(&ifs, 7, 7 + 32 * 6);
    // The ninth inside one another is also the 33rd.
    let both = [header, &empty_if.repeat(24), &head.repeat(9)].concat();
    assert_refused(&both, 6, 7 + 24 * 6 + 8 * 4);
    let accesses = [header, &[0x0A, 0, 0, 0].repeat(65), &[0]].concat();
    assert_refused(&accesses, 7, 7 + 64 * 4);
}

#[test]
fn refusals_of_runs() {
    // One parameter, one read into it, one if.
    let routine = [
        1, 1, 8, 1, 1, 4, 0, 0x09, 0, 0, 0, 0x0B, 0, 0, 0, 0x0C, 0x0D, 0,
    ];
    let refused = |inputs: &[u32], values_len: usize, trail_len: usize| {
        let mut answer = [UNTOUCHED; ANSWER_LEN];
        let (mut values, mut trail) = ([UNTOUCHED_VALUE; 4], [UNTOUCHED_BYTE; 4]);
        let lent = (&mut values[..values_len], &mut trail[..trail_len]);
        let status = pellet::run(&routine, inputs, lent.0, lent.1, &mut answer);
        assert_eq!((values, trail), ([UNTOUCHED_VALUE; 4], [UNTOUCHED_BYTE; 4]));
        assert_eq!(answer[1..], [UNTOUCHED; ANSWER_LEN - 1]);
        (status, answer[0])
    };
    assert_eq!(refused(&[256], 0, 0), (9, 1));
    assert_eq!(refused(&[0, 0, 0], 1, 1), (9, 3));
    assert_eq!(refused(&[255, 256], 0, 0), (10, 1));
    assert_eq!(refused(&[255, 255], 0, 0), (16, 3));
    assert_eq!(refused(&[255, 255], 1, 0), (16, 4));
}
