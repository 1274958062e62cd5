//! The routines of examples/, each as its bytes.

use crate::assemble::Relation::{AtLeastSigned, AtLeastUnsigned, LessSigned, LessUnsigned};
use crate::assemble::{
    add, branch, cut, multiply, quotient, remainder, routine, set, subtract, write, zero_extend,
};

/// Two words from sensors, each at least 50; their sum goes into an array of
/// 100 entries if it is below 100, which it can only be by wrapping around.
pub fn two_sensors() -> Vec<u8> {
    const A: u8 = 0;
    const B: u8 = 1;
    const SUM: u8 = 2;
    const BOUND: u8 = 3;
    let access = branch(LessSigned, SUM, BOUND, &[write(0, SUM, A)], &[]);
    let in_both = [add(SUM, A, B), set(BOUND, 100), access];
    let in_first = [branch(AtLeastSigned, B, BOUND, &in_both, &[])];
    let commands = [
        set(BOUND, 50),
        branch(AtLeastSigned, A, BOUND, &in_first, &[]),
    ];
    routine(&[32; 4], 2, &[100], &commands)
}

/// The last three bits of the sum of two squares are 0, 1, 2, 4 or 5; those
/// from 3 on are taken as an index of three bits, so that 4 and 5 are negative.
pub fn sum_of_squares() -> Vec<u8> {
    const A: u8 = 0;
    const B: u8 = 1;
    const REST: u8 = 2;
    const THREE: u8 = 3;
    let commands = [
        multiply(A, A, A),
        multiply(B, B, B),
        add(A, A, B),
        cut(REST, A),
        set(THREE, 3),
        branch(AtLeastUnsigned, REST, THREE, &[write(0, REST, A)], &[]),
    ];
    routine(&[8, 8, 3, 3], 2, &[3], &commands)
}

/// The count of a repeat is divided by the hooks in a group, which are set at a
/// switch: so many groups are full, and the rest is left over. A rest that is a
/// group or more is written at the number of full groups. Only a division by 0
/// leaves one, and there the quotient is all ones.
pub fn repeat_groups() -> Vec<u8> {
    const COUNT: u8 = 0;
    const SWITCH: u8 = 1;
    const HOOKS: u8 = 2;
    const FULL: u8 = 3;
    const REST: u8 = 4;
    let commands = [
        zero_extend(HOOKS, SWITCH),
        quotient(FULL, COUNT, HOOKS),
        remainder(REST, COUNT, HOOKS),
        branch(AtLeastUnsigned, REST, HOOKS, &[write(0, FULL, REST)], &[]),
    ];
    routine(&[8, 3, 8, 8, 8], 2, &[64], &commands)
}

/// A word falls into one of nine bands, by eight ifs inside one another. Eight
/// of them have a width of 100, and all are moved to 200 and more, where an
/// array of 150 has no entries.
pub fn eight_branches() -> Vec<u8> {
    const WORD: u8 = 0;
    const INDEX: u8 = 1;
    const CONSTANT: u8 = 2;
    let last = set(INDEX, 300);
    let bands = (0..8).rev().fold(last, |others, band| {
        let inside = [
            set(CONSTANT, 100 * band),
            subtract(INDEX, WORD, CONSTANT),
            set(CONSTANT, 200),
            add(INDEX, INDEX, CONSTANT),
        ];
        let choice = branch(LessUnsigned, WORD, CONSTANT, &inside, &[others]);
        [set(CONSTANT, 100 * (band + 1)), choice].concat()
    });
    routine(&[16; 3], 1, &[150], &[bands, write(0, INDEX, WORD)])
}

/// A step moves a carriage, and its new position is marked if the step went back.
/// Nothing sets the position, which is where the last pick left the carriage.
pub fn last_pick() -> Vec<u8> {
    carriage(&[])
}

/// The same for a carriage that is brought home first: every step back from there
/// ends below.
pub fn from_home() -> Vec<u8> {
    carriage(&[set(POSITION, 0)])
}

const STEP: u8 = 0;
const POSITION: u8 = 1;
const ZERO: u8 = 2;

/// The carriage's routine behind these commands.
fn carriage(before: &[Vec<u8>]) -> Vec<u8> {
    let back = [write(0, POSITION, STEP)];
    let commands = [
        add(POSITION, POSITION, STEP),
        set(ZERO, 0),
        branch(LessSigned, STEP, ZERO, &back, &[]),
    ];
    routine(&[8; 3], 1, &[100], &[before, &commands].concat())
}

/// Rounds of a generator of pseudo-random numbers, the last number being an
/// index. Every variable is set before it is used, the narrow one too, whose sum
/// makes the gates of the clauses exactly 99,999.
pub fn generator(seed: u32) -> Vec<u8> {
    const NUMBER: u8 = 0;
    const FACTOR: u8 = 1;
    const SUMMAND: u8 = 2;
    const NARROW: u8 = 3;
    let mut commands = vec![
        set(NUMBER, seed),
        set(FACTOR, 1_664_525),
        set(SUMMAND, 1_013_904_223),
        set(NARROW, 0),
    ];
    for _ in 0..27 {
        commands.push(multiply(NUMBER, NUMBER, FACTOR));
        commands.push(add(NUMBER, NUMBER, SUMMAND));
    }
    commands.push(add(NUMBER, NUMBER, SUMMAND));
    commands.push(add(NUMBER, NUMBER, SUMMAND));
    commands.push(add(NARROW, NARROW, NARROW));
    commands.push(write(0, NUMBER, NARROW));
    routine(&[32, 32, 32, 5], 0, &[4096], &commands)
}
