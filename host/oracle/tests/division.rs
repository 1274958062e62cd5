//! Quotient and remainder: the results by what defines them, the gates of the
//! circuit written out at width 1 and counted at every width, and what the
//! circuit makes of values at every width.

use oracle::propagation::propagate;
use oracle::{measure, run, translate, Clauses, Translation};

const QUOTIENT: u8 = 0x0E;
const REMAINDER: u8 = 0x0F;

/// All values of a narrow width; of a wide one small ones, and those in the
/// middle and at the end of the range.
fn values(width: u8) -> Vec<u32> {
    if width <= 4 {
        return (0..1 << width).collect();
    }
    let (half, most) = (1_u32 << (width - 1), u32::MAX >> (32 - width));
    vec![0, 1, 2, 3, 7, half - 1, half, half + 1, most - 1, most]
}

fn pairs(width: u8) -> Vec<[u32; 2]> {
    let values = values(width);
    let with_each = |&a: &u32| values.iter().map(move |&b| [a, b]).collect::<Vec<_>>();
    values.iter().flat_map(with_each).collect()
}

/// What a run leaves of one command on two parameters, in a variable that had
/// all ones left in it.
fn result(code: u8, width: u8, [a, b]: [u32; 2]) -> u32 {
    let routine = [1, 3, width, width, width, 2, 0, code, 2, 0, 1, 0];
    let inputs = [a, b, u32::MAX >> (32 - width)];
    run(&routine, &inputs, 3, 0)
        .expect("an accepted run")
        .values[2]
}

#[test]
fn results_are_those_of_division() {
    for width in 1..=32 {
        let most = u32::MAX >> (32 - width);
        for [a, b] in pairs(width) {
            let quotient = result(QUOTIENT, width, [a, b]);
            let remainder = result(REMAINDER, width, [a, b]);
            if b == 0 {
                assert_eq!((quotient, remainder), (most, a), "{a} by 0 in {width}");
                continue;
            }
            let product = u64::from(quotient) * u64::from(b);
            let sum = product + u64::from(remainder);
            assert!(
                sum == u64::from(a) && remainder < b,
                "{a} by {b} in {width}"
            );
        }
    }
}

#[test]
fn destination_may_be_an_operand() {
    for (code, operands, results) in [
        (QUOTIENT, [0, 0, 1], [3, 60]),
        (QUOTIENT, [1, 0, 1], [200, 3]),
        (QUOTIENT, [0, 0, 0], [1, 60]),
        (REMAINDER, [0, 0, 1], [20, 60]),
        (REMAINDER, [1, 0, 1], [200, 20]),
        (REMAINDER, [0, 0, 0], [0, 60]),
    ] {
        let [d, s, t] = operands;
        let routine = [1, 2, 8, 8, 2, 0, code, d, s, t, 0];
        let run = run(&routine, &[200, 60], 2, 0).expect("an accepted run");
        assert_eq!(run.values, results, "{code:#04X} {operands:?}");
    }
}

/// Two 1-bit parameters, their quotient or remainder, and a write at it.
fn one_bit(code: u8) -> [u8; 18] {
    [1, 3, 1, 1, 1, 2, 1, 1, 0, code, 2, 0, 1, 0x0A, 0, 2, 0, 0]
}

/// The gates of one step at width 1, over the bits 4 and 6 of the operands: the
/// shifted remainder is 4 and 3, the divisor's opposite 7 and 2. Variable 4 is
/// what the last pick left in the result's variable, and stands in no clause.
#[rustfmt::skip]
const ONE_STEP: &[&[u32]] = &[
    &[2],
    // 5 = XOR(2, -3), 6 = XOR(5, true), 7 = MAJ(2, -3, true).
    &[11, 4, 7], &[11, 5, 6], &[10, 5, 7], &[10, 4, 6],
    &[13, 10, 2], &[13, 11, 3], &[12, 11, 2], &[12, 10, 3],
    &[5, 6, 14], &[5, 3, 14], &[6, 3, 14], &[4, 7, 15], &[4, 2, 15], &[7, 2, 15],
    // 8 = XOR(false, true), 9 = XOR(8, 7), 10 = MAJ(false, true, 7).
    &[17, 3, 2], &[17, 2, 3], &[16, 2, 2], &[16, 3, 3],
    &[19, 16, 14], &[19, 17, 15], &[18, 17, 14], &[18, 16, 15],
    &[2, 3, 20], &[2, 15, 20], &[3, 15, 20], &[3, 2, 21], &[3, 14, 21], &[2, 14, 21],
    // 11 = MUX(10, 6, 2), 12 = MUX(10, 9, false).
    &[21, 13, 22], &[21, 12, 23], &[20, 5, 22], &[20, 4, 23],
    &[21, 19, 24], &[21, 18, 25], &[20, 2, 24], &[20, 3, 25],
];

#[test]
fn one_bit_to_the_last_literal() {
    // The last carry is the quotient, the first choice the remainder.
    for (code, opposite) in [(QUOTIENT, 21), (REMAINDER, 23)] {
        let mut clauses = Clauses::default();
        translate(&one_bit(code), 0, 0, &[], &mut clauses).expect("accepted");
        let mut expected: Vec<Vec<u32>> = ONE_STEP.iter().map(|clause| clause.to_vec()).collect();
        expected.extend([vec![2], vec![opposite]]);
        assert_eq!(clauses.numbers(), expected);
    }
}

/// The variables, clauses and words that a division adds to a translation,
/// behind these commands. The write at the end is at a variable that no division
/// sets.
fn added(before: &[u8], code: u8, width: u8, [d, s, t]: [u8; 3]) -> [usize; 3] {
    let header = [1, 4, width, width, width, 1, 2, 1, 1, 0];
    let write = [0x0A, 0, 3, 0, 0];
    let counts = |commands: &[u8]| {
        let routine = [&header, before, commands, &write].concat();
        let counted = measure(&routine, 0, 0, &[]).expect("accepted");
        [counted.variables, counted.clauses, counted.words]
    };
    let (with, without) = (counts(&[code, d, s, t]), counts(&[]));
    [0, 1, 2].map(|k| with[k] - without[k])
}

/// Nothing is simplified, whether the operands are parameters, one and the same,
/// a leftover or the constant 0.
#[test]
fn counts_at_every_width() {
    let set_to_zero = [0x01, 2, 0, 0, 0, 0];
    for width in 1..=32 {
        let bits = usize::from(width) * (usize::from(width) + 1);
        let expected = [4 * bits, 18 * bits, 72 * bits];
        for code in [QUOTIENT, REMAINDER] {
            for operands in [[2, 0, 1], [0, 0, 1], [1, 0, 1], [0, 0, 0], [0, 1, 2]] {
                assert_eq!(added(&[], code, width, operands), expected);
                assert_eq!(added(&set_to_zero, code, width, operands), expected);
            }
        }
    }
}

/// Whether the arrival says that the result is the word expected, by unit
/// propagation from the operands and that word.
fn arrives(translation: &Translation, clauses: &Clauses, inputs: &[u32]) -> Option<bool> {
    let mut assignment = translation.assignment(inputs);
    propagate(clauses.first(clauses.len() - 2), &mut assignment).expect("no conflict");
    assert_eq!(assignment.first_undecided(), None);
    assignment.value(translation.arrival)
}

#[test]
fn circuits_at_every_width() {
    for width in 1..=32 {
        for code in [QUOTIENT, REMAINDER] {
            let header = [1, 4, width, width, width, width, 3, 1, 1, 0];
            let division = [code, 3, 0, 1];
            let access = [0x0B, 0, 3, 2, 0x0A, 0, 3, 0, 0x0C, 0x0D, 0];
            let routine = [header.as_slice(), &division, &access].concat();
            let mut clauses = Clauses::default();
            let translation = translate(&routine, 0, 0, &[0], &mut clauses).expect("accepted");
            for [a, b] in pairs(width) {
                let expected = result(code, width, [a, b]);
                // Whatever the result's variable began with.
                let found = |word| arrives(&translation, &clauses, &[a, b, word, b]);
                assert_eq!(found(expected), Some(true), "{a} by {b} in {width}");
                let other = expected ^ 1 << (a % u32::from(width));
                assert_eq!(found(other), Some(false), "{a} by {b} in {width}");
            }
        }
    }
}
