//! An index as a signed number: all words of 1 to 12 bits, and drawn ones of
//! 13 to 32 with those at the ends of both halves, held against a reading by
//! shifts, which neither the library nor the oracle does. Runs tell the number
//! where an index stops them, judging tells that of a finding, and a sign
//! extension leaves it in the values.

use differential::rng::Rng;
use pellet::ANSWER_LEN;

const SEED: u64 = 0x50E1_1E7D_2026_0014;
const DRAWN: u64 = 1000;

/// All words have a place in the test up to this width.
const ALL: u32 = 12;

/// The number: the word's top bit moved to the top of 32, and back with copies
/// of it.
fn by_shifts(word: u32, width: u32) -> i64 {
    let away = 32 - width;
    i64::from(((word << away) as i32) >> away)
}

/// The words of this width that are read.
fn words(width: u32) -> Vec<u32> {
    let last = u32::MAX >> (32 - width);
    if width <= ALL {
        return (0..=last).collect();
    }
    let half = 1 << (width - 1);
    let mut words = vec![0, 1, half - 1, half, half + 1, last];
    words.extend((0..DRAWN).map(|case| {
        let mut rng = Rng::for_case(SEED + u64::from(width), case);
        rng.word() as u32 & last
    }));
    words
}

/// Each width with each of its words.
fn every_word(mut look: impl FnMut(u32, u32)) {
    for width in 1..=32 {
        for word in words(width) {
            look(width, word);
        }
    }
}

/// Sign and magnitude, as the library tells a number.
fn sign_and_magnitude(number: i64) -> [u64; 2] {
    [u64::from(number < 0), number.unsigned_abs()]
}

/// The values and the answer of a run on these input words.
fn run(routine: &[u8], inputs: &[u32]) -> ([u32; 2], [u64; ANSWER_LEN]) {
    let (mut values, mut answer) = ([9; 2], [9; ANSWER_LEN]);
    let status = pellet::run(routine, inputs, &mut values, &mut [], &mut answer);
    assert_eq!(status, 0);
    (values, answer)
}

#[test]
fn a_run_stops_at_the_number() {
    let mut sides = [0, 0];
    every_word(|width, word| {
        let routine = [1, 1, width as u8, 1, 1, 1, 0, 0x0A, 0, 0, 0, 0];
        let (values, answer) = run(&routine, &[word]);
        assert_eq!(values, [word, 9]);
        let number = by_shifts(word, width);
        if number == 0 {
            assert_eq!(answer[0], 0, "{word} of {width} bits");
            return;
        }
        let side = u64::from(number > 0);
        sides[side as usize] += 1;
        let [sign, magnitude] = sign_and_magnitude(number);
        assert_eq!(
            answer[..5],
            [1, 0, side, sign, magnitude],
            "{word} of {width} bits"
        );
    });
    assert!(sides.iter().all(|&stops| stops > 10_000), "{sides:?}");
}

#[test]
fn a_finding_tells_the_number() {
    // The lead with one input word, hints to the first and to the last clause,
    // a close and the end.
    let report = [0, 0, 0, 0, 0, 0, 2, 0, 0, 0, 0, 2, 2, 0, 0, 0, 3, 0];
    every_word(|width, word| {
        let mut routine = vec![1, 1, width as u8, 1, 1, 1, 0, 0x01, 0];
        routine.extend(word.to_le_bytes());
        routine.extend([0x0A, 0, 0, 0, 0]);
        let (mut words, mut starts, mut marks) = ([9; 8], [9; 4], [9; 64]);
        let (mut values, mut trail, mut answer) = ([9; 1], [9; 0], [9; ANSWER_LEN]);
        let status = pellet::judge(
            &routine,
            &report,
            &mut words,
            &mut starts,
            &mut marks,
            &mut values,
            &mut trail,
            &mut answer,
        );
        let number = by_shifts(word, width);
        if number < 0 {
            let [sign, magnitude] = sign_and_magnitude(number);
            assert_eq!(status, 0, "{word} of {width} bits");
            assert_eq!(
                answer[..8],
                [0, 0, 0, 1, sign, magnitude, 1, 2],
                "{word} of {width} bits"
            );
        } else {
            // The index is not below.
            assert_eq!((status, answer[0]), (15, 0), "{word} of {width} bits");
        }
    });
}

#[test]
fn a_sign_extension_keeps_the_number() {
    every_word(|width, word| {
        if width < 32 {
            let routine = [1, 2, width as u8, 32, 1, 0, 0x08, 1, 0, 0];
            // Whatever was left in the wider variable, here the opposite bits.
            let (values, answer) = run(&routine, &[word, !word]);
            assert_eq!(answer[0], 0);
            let extended = by_shifts(word, width) as u32;
            assert_eq!(values, [word, extended], "{word} of {width} bits");
        }
    });
}
