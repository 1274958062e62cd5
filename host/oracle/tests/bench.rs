//! The worked examples that concern routine, run and arithmetic, and one
//! example for each way in which a refusal's number and place are fixed.

use oracle::{check, run, Arm, Counts, Outcome, Refusal, Run, Side};

/// One 8-bit parameter, one array of 100, one write at the parameter.
const WRITE_AT_PARAMETER: &[u8] = &[1, 1, 8, 1, 1, 100, 0, 0x0A, 0, 0, 0, 0];
/// One 1-bit variable set to 1, then a write at it into an array of 1.
const WRITE_AT_ONE_BIT: &[u8] = &[1, 1, 1, 0, 1, 1, 0, 0x01, 0, 1, 0, 0, 0, 0x0A, 0, 0, 0, 0];

fn refusal(number: u8, place: usize) -> Refusal {
    Refusal { number, place }
}

fn assert_refused(bytes: &[u8], number: u8, place: usize) {
    assert_eq!(check(bytes), Err(refusal(number, place)), "{bytes:02X?}");
    // A run refuses a routine as the check does, whatever it is given.
    assert_eq!(run(bytes, &[7; 3], 0, 0), Err(refusal(number, place)));
}

fn ample_run(bytes: &[u8], inputs: &[u32]) -> Run {
    run(bytes, inputs, 32, 32).expect("an accepted run")
}

fn stopped(access: usize, side: Side, index: i64) -> Outcome {
    Outcome::Stopped {
        access,
        side,
        index,
    }
}

/// The header `01 01 08 00 00`: one 8-bit variable, no parameter, no array. It
/// begins with the one word of an input list.
fn one_variable(commands: &[u8]) -> Vec<u8> {
    [&[1, 1, 8, 0, 0], commands].concat()
}

/// The header `01 01 08 00 01 04 00`: as above, with one array of 4.
fn one_array(commands: &[u8]) -> Vec<u8> {
    [&[1, 1, 8, 0, 1, 4, 0], commands].concat()
}

/// The commands d, s, t on variables of one width.
const OPERATIONS: [u8; 5] = [0x03, 0x04, 0x05, 0x0E, 0x0F];

/// One 8-bit and one 4-bit variable, no parameter, no array.
fn two_widths(commands: &[u8]) -> Vec<u8> {
    [&[1, 2, 8, 4, 0, 0], commands].concat()
}

#[test]
fn counts_of_the_bench_routines() {
    let expected = Counts {
        variables: 1,
        parameters: 1,
        arrays: 1,
        ifs: 0,
        accesses: 1,
        reads: 0,
        first_command: 7,
    };
    assert_eq!(check(WRITE_AT_PARAMETER), Ok(expected));
    let expected = Counts {
        parameters: 0,
        ..expected
    };
    assert_eq!(check(WRITE_AT_ONE_BIT), Ok(expected));
}

#[test]
fn index_is_signed() {
    for word in [0, 99] {
        assert_eq!(
            ample_run(WRITE_AT_PARAMETER, &[word]).outcome,
            Outcome::Ended
        );
    }
    for word in [100, 127] {
        let expected = stopped(0, Side::Above, i64::from(word));
        assert_eq!(ample_run(WRITE_AT_PARAMETER, &[word]).outcome, expected);
    }
    for (word, index) in [(128, -128), (255, -1)] {
        let expected = stopped(0, Side::Below, index);
        assert_eq!(ample_run(WRITE_AT_PARAMETER, &[word]).outcome, expected);
    }
}

/// Whatever the last pick left: the variable is set before it is used.
#[test]
fn one_bit_index_is_minus_one() {
    for leftover in [0, 1] {
        let run = ample_run(WRITE_AT_ONE_BIT, &[leftover]);
        assert_eq!(run.outcome, stopped(0, Side::Below, -1));
        assert_eq!(run.values, [1]);
    }
}

/// An 8-bit index never reaches 256, and the size is not cut to its width.
#[test]
fn size_is_a_whole_number() {
    let routine = [1, 1, 8, 1, 1, 0, 1, 0x0A, 0, 0, 0, 0];
    assert_eq!(ample_run(&routine, &[127]).outcome, Outcome::Ended);
    assert_eq!(ample_run(&routine, &[0]).outcome, Outcome::Ended);
}

/// The result's variable is no parameter, and what it begins with is lost.
#[test]
fn arithmetic_of_the_bench() {
    for leftover in [0, 77, 255] {
        for (code, a, b, expected) in [(3, 200, 100, 44), (4, 0, 1, 255), (5, 16, 16, 0)] {
            let routine = [1, 3, 8, 8, 8, 2, 0, code, 2, 0, 1, 0];
            let run = ample_run(&routine, &[a, b, leftover]);
            assert_eq!(run.values, [a, b, expected]);
        }
        let sign_extend = [1, 2, 4, 8, 1, 0, 0x08, 1, 0, 0];
        assert_eq!(ample_run(&sign_extend, &[8, leftover]).values, [8, 248]);
        let cut = [1, 2, 9, 8, 1, 0, 0x06, 1, 0, 0];
        assert_eq!(ample_run(&cut, &[500, leftover]).values, [500, 244]);
    }
    for (relation, arm) in [(6, Arm::First), (2, Arm::Else)] {
        let routine = [1, 2, 8, 8, 2, 0, 0x0B, relation, 0, 1, 0x0C, 0x0D, 0];
        assert_eq!(ample_run(&routine, &[128, 127]).trail, [arm]);
    }
}

#[test]
fn nothing_is_carried_out_after_a_stop() {
    let commands = [
        [0x0B, 0, 0, 0].as_slice(), // if v0 = v0
        &[0x01, 0, 4, 0, 0, 0],     //   v0 := 4
        &[0x09, 0, 0, 0],           //   v0 := array 0 at v0, which stops
        &[0x01, 0, 9, 0, 0, 0],     //   v0 := 9
        &[0x0C, 0x0D],
        &[0x0B, 0, 0, 0, 0x0C, 0x0D],
        &[0],
    ]
    .concat();
    let run = ample_run(&one_array(&commands), &[2, 77]);
    assert_eq!(run.outcome, stopped(0, Side::Above, 4));
    assert_eq!(run.values, [4]);
    assert_eq!(run.trail, [Arm::First, Arm::NotComeTo]);
}

/// The word of a read goes by its number in the text: the read in the else
/// arm takes the second word behind the variable's though the run comes to it
/// first.
#[test]
fn word_of_a_read_goes_by_the_text() {
    let commands = [
        [0x0B, 1, 0, 0].as_slice(), // if v0 ≠ v0
        &[0x09, 0, 0, 0],
        &[0x0C],
        &[0x09, 0, 0, 0],
        &[0x0D, 0],
    ]
    .concat();
    let run = ample_run(&one_array(&commands), &[2, 200, 3]);
    assert_eq!(run.outcome, Outcome::Ended);
    assert_eq!(run.values, [3]);
    assert_eq!(run.trail, [Arm::Else]);
}

#[test]
fn refusal_1() {
    assert_refused(&[], 1, 0);
    assert_refused(&[0; 5000], 1, 0);
    assert_refused(&[1; 4097], 1, 0);
    // At 4,096 bytes the header is looked at.
    assert_refused(&[0; 4096], 2, 0);
}

#[test]
fn refusal_2_by_rising_offset() {
    assert_refused(&[0], 2, 0);
    assert_refused(&[1], 2, 1);
    assert_refused(&[1, 0], 2, 1);
    assert_refused(&[1, 33], 2, 1);
    assert_refused(&[1, 3, 0x21], 2, 2);
    assert_refused(&[1, 2, 8], 2, 3);
    assert_refused(&[1, 2, 8, 0, 9], 2, 3);
    assert_refused(&[1, 1, 8], 2, 3);
    assert_refused(&[1, 1, 8, 2, 0, 0], 2, 3);
    assert_refused(&[1, 1, 8, 0], 2, 4);
    assert_refused(&[1, 1, 8, 0, 17], 2, 4);
    assert_refused(&[1, 1, 8, 0, 1], 2, 5);
    assert_refused(&[1, 1, 8, 0, 1, 0x64], 2, 5);
    assert_refused(&[1, 1, 8, 0, 1, 0, 0, 0], 2, 5);
    assert_refused(&[1, 1, 8, 0, 1, 1, 0x10, 0], 2, 5);
    assert_refused(&[1, 1, 8, 0, 2, 0, 0x10, 0], 2, 7);
}

#[test]
fn refusal_3_and_running_out() {
    assert_refused(&one_variable(&[]), 3, 5);
    assert_refused(&one_variable(&[0x10, 0]), 3, 5);
    assert_refused(&one_variable(&[0xFF]), 3, 5);
    assert_refused(&one_variable(&[0x02, 0, 0]), 3, 8);
    assert_refused(&one_variable(&[0x0B, 0, 0, 0]), 3, 9);
    assert_refused(&one_variable(&[0x0B, 0, 0, 0, 0x0C]), 3, 10);
    assert_refused(&one_variable(&[0x0B, 0, 0, 0, 0x0C, 0x0D]), 3, 11);
    // Cut, though an operand that is there is out of range.
    assert_refused(&one_variable(&[0x02, 9]), 3, 5);
    assert_refused(&one_variable(&[0x01, 9, 0, 0, 0]), 3, 5);
    for code in OPERATIONS {
        for operands in [[].as_slice(), &[9], &[9, 9]] {
            assert_refused(&one_variable(&[&[code], operands].concat()), 3, 5);
        }
    }
}

#[test]
fn refusal_4() {
    assert_refused(&one_variable(&[0x02, 1, 0, 0]), 4, 5);
    assert_refused(&one_variable(&[0x01, 0, 0, 1, 0, 0, 0]), 4, 5);
    assert_refused(&one_variable(&[0x0B, 10, 0, 0, 0x0C, 0x0D, 0]), 4, 5);
    // Without arrays every access is out of range.
    assert_refused(&one_variable(&[0x09, 0, 0, 0, 0]), 4, 5);
    assert_refused(&one_variable(&[0x0A, 0, 0, 0, 0]), 4, 5);
    // Range before widths.
    for code in OPERATIONS {
        for [d, s, t] in [[0, 1, 2], [0, 2, 1], [2, 0, 1]] {
            assert_refused(&two_widths(&[code, d, s, t, 0]), 4, 6);
        }
    }
    // Every constant fits a variable of 32 bits.
    let widest = [1, 1, 32, 0, 0, 0x01, 0, 0xFF, 0xFF, 0xFF, 0xFF, 0];
    assert_eq!(ample_run(&widest, &[0]).values, [u32::MAX]);
}

#[test]
fn refusal_5() {
    for unequal in [
        [0x02, 0, 1, 0],
        [0x06, 0, 1, 0],
        [0x06, 0, 0, 0],
        [0x07, 1, 0, 0],
        [0x07, 1, 1, 0],
        [0x08, 1, 0, 0],
        [0x08, 0, 0, 0],
    ] {
        assert_refused(&two_widths(&unequal), 5, 6);
    }
    for code in OPERATIONS {
        assert_refused(&two_widths(&[code, 0, 0, 1, 0]), 5, 6);
        assert_refused(&two_widths(&[code, 0, 1, 0, 0]), 5, 6);
        assert_refused(&two_widths(&[code, 1, 0, 0, 0]), 5, 6);
    }
    assert_refused(&two_widths(&[0x0B, 0, 0, 1, 0x0C, 0x0D, 0]), 5, 6);
}

#[test]
fn refusal_6() {
    assert_refused(&one_variable(&[0x0C, 0]), 6, 5);
    assert_refused(&one_variable(&[0x0D, 0]), 6, 5);
    assert_refused(&one_variable(&[0x0B, 0, 0, 0, 0x00]), 6, 9);
    assert_refused(&one_variable(&[0x0B, 0, 0, 0, 0x0D, 0]), 6, 9);
    assert_refused(&one_variable(&[0x0B, 0, 0, 0, 0x0C, 0x00]), 6, 10);
    assert_refused(&one_variable(&[0x0B, 0, 0, 0, 0x0C, 0x0C]), 6, 10);
}

const IF: &[u8] = &[0x0B, 0, 0, 0];
const EMPTY_IF: &[u8] = &[0x0B, 0, 0, 0, 0x0C, 0x0D];

#[test]
fn depth_8_is_accepted_and_9_is_refused() {
    let eight = [&IF.repeat(8), [0x0C, 0x0D].repeat(8).as_slice(), &[0]].concat();
    assert_eq!(check(&one_variable(&eight)).map(|counts| counts.ifs), Ok(8));
    assert_refused(&one_variable(&IF.repeat(9)), 6, 5 + 8 * 4);
}

#[test]
fn refusal_7_after_6() {
    let full = EMPTY_IF.repeat(32);
    let accepted = [&full, [0].as_slice()].concat();
    assert_eq!(
        check(&one_variable(&accepted)).map(|counts| counts.ifs),
        Ok(32)
    );
    assert_refused(&one_variable(&[&full, IF].concat()), 7, 5 + 32 * 6);

    // 24 ifs side by side and 8 open ones: the next is the 33rd and at depth 9.
    let deep = [EMPTY_IF.repeat(24), IF.repeat(9)].concat();
    assert_refused(&one_variable(&deep), 6, 5 + 24 * 6 + 8 * 4);

    let accesses = [[0x09, 0, 0, 0], [0x0A, 0, 0, 0]].concat().repeat(32);
    let accepted = [&accesses, [0].as_slice()].concat();
    let counts = check(&one_array(&accepted)).expect("64 accesses");
    assert_eq!((counts.accesses, counts.reads), (64, 32));
    for code in [0x09, 0x0A] {
        let refused = [accesses.as_slice(), &[code, 0, 0, 0, 0]].concat();
        assert_refused(&one_array(&refused), 7, 7 + 64 * 4);
    }
}

#[test]
fn refusal_8_at_the_first_byte_after_the_end() {
    assert_refused(&one_variable(&[0, 0]), 8, 6);
    assert_refused(&one_variable(&[0, 0xFF, 1, 2]), 8, 6);
}

#[test]
fn refusals_of_a_run_in_their_order() {
    // One parameter and one read into it, one if.
    let routine = [
        1, 1, 8, 1, 1, 4, 0, 0x09, 0, 0, 0, 0x0B, 0, 0, 0, 0x0C, 0x0D, 0,
    ];
    let refused = |inputs: &[u32], values, trail| run(&routine, inputs, values, trail).unwrap_err();
    assert_eq!(refused(&[], 0, 0), refusal(9, 0));
    assert_eq!(refused(&[256], 0, 0), refusal(9, 1));
    assert_eq!(refused(&[0, 0, 0], 1, 1), refusal(9, 3));
    assert_eq!(refused(&[256, 256], 0, 0), refusal(10, 0));
    // The read is not come to, its word is looked at all the same.
    assert_eq!(refused(&[255, 256], 0, 0), refusal(10, 1));
    assert_eq!(refused(&[255, 255], 0, 0), refusal(16, 3));
    assert_eq!(refused(&[255, 255], 1, 0), refusal(16, 4));
    assert!(run(&routine, &[255, 255], 1, 1).is_ok());
}
