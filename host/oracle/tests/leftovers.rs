//! Variables that are no parameters begin with what the last pick left in them:
//! runs from any leftovers, and the refusals 9 and 10.

use oracle::{run, Outcome, Refusal, Run, Side};

fn refusal(number: u8, place: usize) -> Refusal {
    Refusal { number, place }
}

fn ample_run(bytes: &[u8], inputs: &[u32]) -> Run {
    run(bytes, inputs, 32, 32).expect("an accepted run")
}

fn stopped(side: Side, index: i64) -> Outcome {
    Outcome::Stopped {
        access: 0,
        side,
        index,
    }
}

/// The widths of four variables.
const FOUR: [u8; 4] = [8, 4, 1, 32];

/// Four variables, so many of them parameters, and no commands.
fn do_nothing(parameters: u8) -> Vec<u8> {
    [&[1, 4], &FOUR[..], &[parameters, 0, 0]].concat()
}

/// Every variable begins with the word of its own number, parameter or not.
#[test]
fn variables_begin_with_their_words() {
    for parameters in 0..=4 {
        let routine = do_nothing(parameters);
        for words in [
            [0, 0, 0, 0],
            [255, 15, 1, u32::MAX],
            [200, 0, 0, 0],
            [0, 9, 0, 0],
            [0, 0, 1, 0],
            [0, 0, 0, 1 << 31],
        ] {
            let run = ample_run(&routine, &words);
            assert_eq!(run.outcome, Outcome::Ended);
            assert_eq!(run.values, words);
        }
    }
}

/// Where the input list is too long or too short, and where a word is too great
/// for a variable or a read, how many variables are parameters does not matter.
#[test]
fn refusals_with_leftovers() {
    for parameters in 0..=4 {
        let nothing = do_nothing(parameters);
        let refused = |inputs: &[u32]| run(&nothing, inputs, 4, 0).unwrap_err();
        for len in [0, 1, 2, 3, 5, 6] {
            assert_eq!(refused(&vec![0; len]), refusal(9, len));
        }
        assert_eq!(refused(&[256, 16, 2, 0]), refusal(10, 0));
        assert_eq!(refused(&[255, 16, 2, 0]), refusal(10, 1));
        assert_eq!(refused(&[255, 15, 2, 0]), refusal(10, 2));
        assert!(run(&nothing, &[255, 15, 1, u32::MAX], 4, 0).is_ok());
        // A variable of 1 bit and one of 4, and two reads into each.
        let reads = [0x09, 0, 0, 0, 0x09, 1, 0, 0].repeat(2);
        let header = [1, 2, 1, 4, parameters.min(2), 1, 1, 0];
        let routine = [&header, reads.as_slice(), &[0]].concat();
        let refused = |inputs: &[u32]| run(&routine, inputs, 2, 0).unwrap_err();
        for len in [4, 5, 7] {
            assert_eq!(refused(&vec![0; len]), refusal(9, len));
        }
        assert_eq!(refused(&[1, 15, 2, 16, 2, 16]), refusal(10, 2));
        assert_eq!(refused(&[1, 15, 1, 16, 2, 16]), refusal(10, 3));
        assert_eq!(refused(&[1, 15, 1, 15, 2, 16]), refusal(10, 4));
        assert_eq!(refused(&[1, 15, 1, 15, 1, 16]), refusal(10, 5));
        assert!(run(&routine, &[1, 15, 1, 15, 1, 15], 2, 0).is_ok());
    }
}

/// The words of the reads come behind those of all variables, not behind those
/// of the parameters.
#[test]
fn words_of_reads_come_behind_the_leftovers() {
    for parameters in 0..=3 {
        let header = [1, 3, 8, 8, 8, parameters, 1, 4, 0];
        let commands = [
            [0x09, 1, 0, 0].as_slice(), // v1 := array 0 at v0
            &[0x09, 2, 0, 0],           // v2 := array 0 at v0
            &[0],
        ]
        .concat();
        let routine = [header.as_slice(), &commands].concat();
        let run = ample_run(&routine, &[3, 10, 20, 30, 40]);
        assert_eq!(run.outcome, Outcome::Ended);
        assert_eq!(run.values, [3, 30, 40]);
        // Stopped before it reads, so the leftovers are still there.
        let run = ample_run(&routine, &[4, 10, 20, 30, 40]);
        assert_eq!(run.outcome, stopped(Side::Above, 4));
        assert_eq!(run.values, [4, 10, 20]);
    }
}

/// A write at a variable that is never set: what the last pick left in it is
/// the index.
#[test]
fn leftover_is_an_index() {
    for (leftover, outcome) in [
        (0, Outcome::Ended),
        (3, Outcome::Ended),
        (4, stopped(Side::Above, 4)),
        (255, stopped(Side::Below, -1)),
    ] {
        let routine = [1, 1, 8, 0, 1, 4, 0, 0x0A, 0, 0, 0, 0];
        assert_eq!(ample_run(&routine, &[leftover]).outcome, outcome);
    }
}
