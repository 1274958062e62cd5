//! Cases gone through one after the other instead of drawn: every operation,
//! change of width, relation and index at every width, the refusals of every
//! operation, and every one-byte change and every cut of a routine that has every
//! command in it, of which the space is asked for as well.

use differential::case::Case;
use differential::compare::{compare, Verdict, Verdicts};
use differential::plan::OPERATIONS;
use differential::rng::Rng;
use differential::space_compare::compare_as_told;
use differential::translation_case::TranslationCase;
use oracle::Refusal;

const SEED: u64 = 0x50E1_1E7D_2026_0002;

fn agree(rng: &mut Rng, routine: &[u8], inputs: &[u32]) -> Verdicts {
    compare(&Case::ample(rng, routine, inputs)).unwrap_or_else(|report| panic!("{report}"))
}

/// A run that is not turned down, unless the routine is.
fn agree_on_run(rng: &mut Rng, routine: &[u8], inputs: &[u32]) {
    let verdicts = agree(rng, routine, inputs);
    let is_right = match verdicts.check {
        Verdict::Done(_) => matches!(verdicts.run, Verdict::Done(_)),
        _ => true,
    };
    assert!(is_right, "{routine:02X?} {inputs:?}: {:?}", verdicts.run);
}

/// All values of a narrow width, the ends of the ranges of a wide one.
fn values(width: u8) -> Vec<u32> {
    if width <= 4 {
        return (0..1 << width).collect();
    }
    let (half, most) = (1_u32 << (width - 1), u32::MAX >> (32 - width));
    vec![0, 1, 2, 5, half - 1, half, half + 1, most - 1, most]
}

fn pairs(width: u8) -> Vec<[u32; 2]> {
    let values = values(width);
    let with_each = |&a: &u32| values.iter().map(move |&b| [a, b]).collect::<Vec<_>>();
    values.iter().flat_map(with_each).collect()
}

#[test]
fn operations_at_every_width() {
    let rng = &mut Rng::for_case(SEED, 0);
    for width in 1..=32 {
        for code in OPERATIONS {
            for [d, s, t] in [[2, 0, 1], [0, 0, 1], [1, 0, 1], [0, 0, 0], [2, 0, 2]] {
                let routine = [1, 3, width, width, width, 2, 0, code, d, s, t, 0];
                // What was left in the third goes by the first.
                for [a, b] in pairs(width) {
                    agree_on_run(rng, &routine, &[a, b, a ^ 1]);
                }
            }
        }
    }
}

/// Asserts this refusal of the routine with these commands, whose variables have
/// 8, 8 and 7 bits and which begin at offset 7.
fn assert_refused(rng: &mut Rng, commands: &[u8], number: u8) {
    let routine = [&[1, 3, 8, 8, 7, 0, 0], commands].concat();
    let place = 7;
    match agree(rng, &routine, &[]).check {
        Verdict::Refused(refusal) => assert_eq!(refusal, Refusal { number, place }),
        verdict => panic!("{routine:02X?}: {verdict:?}"),
    }
}

/// Cut short whatever the operands that are there; any operand out of range
/// whatever the widths of the others; then any operand of another width.
#[test]
fn refusals_of_operations() {
    let rng = &mut Rng::for_case(SEED, 10);
    for code in OPERATIONS {
        for operand in [0, 2, 3, 255] {
            for operands in 0..3 {
                let commands = [vec![code], vec![operand; operands]].concat();
                assert_refused(rng, &commands, 3);
            }
        }
        for at in 1..=3 {
            for other in [0, 2] {
                for operand in [3, 4, 32, 255] {
                    let mut commands = [code, 0, other, 0, 0];
                    commands[at] = operand;
                    assert_refused(rng, &commands, 4);
                }
            }
            let mut commands = [code, 0, 1, 0, 0];
            commands[at] = 2;
            assert_refused(rng, &commands, 5);
        }
    }
    for code in 0x10..=0xFF {
        assert_refused(rng, &[code, 0, 0, 0, 0], 3);
    }
}

#[test]
fn relations_at_every_width() {
    let rng = &mut Rng::for_case(SEED, 1);
    for width in 1..=32 {
        for relation in 0..10 {
            let routine = [
                1, 2, width, width, 2, 0, 0x0B, relation, 0, 1, 0x0C, 0x0D, 0,
            ];
            for inputs in pairs(width) {
                agree_on_run(rng, &routine, &inputs);
            }
        }
    }
}

/// All pairs of widths, those that must be refused among them.
#[test]
fn changes_of_width() {
    let rng = &mut Rng::for_case(SEED, 2);
    for from in 1..=32 {
        for to in 1..=32 {
            for code in [0x02, 0x06, 0x07, 0x08] {
                let routine = [1, 2, from, to, 1, 0, code, 1, 0, 0];
                let left = u32::MAX >> (32 - to);
                for value in values(from) {
                    agree_on_run(rng, &routine, &[value, left]);
                }
            }
        }
    }
}

#[test]
fn constants_at_every_width() {
    let rng = &mut Rng::for_case(SEED, 3);
    for width in 1..=32 {
        let mut constants = values(width);
        // The first ones that do not fit, where there are such.
        constants.extend(1_u32.checked_shl(width.into()));
        constants.extend([1 << 31, u32::MAX]);
        for constant in constants {
            let mut routine = vec![1, 1, width, 0, 0, 0x01, 0];
            routine.extend_from_slice(&constant.to_le_bytes());
            routine.push(0);
            agree_on_run(rng, &routine, &[1]);
        }
    }
}

#[test]
fn indices_at_every_width_and_size() {
    let rng = &mut Rng::for_case(SEED, 4);
    let sizes = [
        1, 2, 3, 4, 7, 8, 15, 16, 127, 128, 255, 256, 257, 2047, 2048, 4095, 4096,
    ];
    for width in 1..=32 {
        let most = u32::MAX >> (32 - width);
        for size in sizes {
            let [low, high] = u16::to_le_bytes(size);
            let write = [1, 1, width, 1, 1, low, high, 0x0A, 0, 0, 0, 0];
            let read = [1, 1, width, 1, 1, low, high, 0x09, 0, 0, 0, 0];
            let size = u32::from(size);
            let near = [size - 1, size, size + 1]
                .into_iter()
                .filter(|&k| k <= most);
            for index in values(width).into_iter().chain(near) {
                agree_on_run(rng, &write, &[index]);
                agree_on_run(rng, &read, &[index, 1]);
            }
        }
    }
}

/// Every command stands in it, with reads in both arms of an if inside another.
const EVERY_COMMAND: &[u8] = &[
    1, 4, 8, 8, 4, 1, 2, 2, 100, 0, 0,
    16, // header: widths 8 8 4 1, two parameters, two arrays
    0x01, 1, 7, 0, 0, 0, // v1 := 7
    0x03, 0, 0, 1, // v0 := v0 + v1
    0x0B, 2, 0, 1, // if v0 <u v1
    0x02, 0, 1, // v0 := v1
    0x0B, 9, 2, 2, // if v2 ≥s v2
    0x09, 1, 1, 0,    // v1 := array 1 at v0
    0x0C, // else
    0x09, 2, 0, 2,    // v2 := array 0 at v2
    0x0D, // end of if
    0x0C, // else
    0x04, 0, 0, 1, // v0 := v0 - v1
    0x05, 0, 0, 0, // v0 := v0 * v0
    0x0E, 0, 0, 1, // v0 := v0 / v1
    0x0A, 0, 0, 3,    // array 0 at v0 := v3
    0x0D, // end of if
    0x06, 2, 1, // v2 := v1 cut
    0x07, 1, 2, // v1 := v2 zero-extended
    0x0F, 1, 0, 1, // v1 := v0 % v1
    0x08, 0, 3, // v0 := v3 sign-extended
    0x0A, 1, 1, 0,    // array 1 at v1 := v0
    0x00, // end
];

/// Inputs for all that one byte more or less can make of it, and some that
/// are too few, too many or too great: a word for each of the four variables and
/// the two reads, or one fewer or more, or only those of the parameters and the
/// reads.
const INPUT_LISTS: &[&[u32]] = &[
    &[255, 3, 9, 1, 9, 5],
    &[1, 3, 15, 0, 15, 4],
    &[0, 0, 0, 0, 0],
    &[1, 200, 15, 1, 255, 16, 0],
    &[1, 3, 15, 4],
];

/// Accesses, sides and decisions for the same: the last access with both ifs
/// free, one in the else by the decisions, and one decision too few.
const LEADS: &[(u8, u8, &[u8])] = &[(3, 1, &[2, 2]), (2, 0, &[1, 0]), (0, 1, &[2])];

fn agree_on_all(rng: &mut Rng, routine: &[u8]) {
    for inputs in INPUT_LISTS {
        agree(rng, routine, inputs);
    }
    for &lead in LEADS {
        // Where the translation is not refused, its words are too small.
        let case = TranslationCase::lending(rng, routine, lead, (0, 0));
        compare_as_told(&case).unwrap_or_else(|report| panic!("{report}"));
    }
}

/// The first two lists are those of the routine as it is; the others have five,
/// seven and four words.
#[test]
fn every_command() {
    let rng = &mut Rng::for_case(SEED, 11);
    for (number, inputs) in INPUT_LISTS.iter().enumerate() {
        let verdict = agree(rng, EVERY_COMMAND, inputs).run;
        let wrong = Refusal {
            number: 9,
            place: inputs.len(),
        };
        match number {
            0 | 1 => assert!(matches!(verdict, Verdict::Done(_)), "{verdict:?}"),
            _ => assert_eq!(verdict, Verdict::Refused(wrong)),
        }
    }
}

#[test]
fn every_change_of_one_byte() {
    let rng = &mut Rng::for_case(SEED, 5);
    for at in 0..EVERY_COMMAND.len() {
        for byte in 0..=u8::MAX {
            let mut routine = EVERY_COMMAND.to_vec();
            routine[at] = byte;
            agree_on_all(rng, &routine);
        }
    }
}

#[test]
fn every_insertion_of_a_command_byte() {
    let rng = &mut Rng::for_case(SEED, 6);
    for at in 0..=EVERY_COMMAND.len() {
        for byte in 0..=0x10 {
            let mut routine = EVERY_COMMAND.to_vec();
            routine.insert(at, byte);
            agree_on_all(rng, &routine);
        }
    }
}

#[test]
fn every_removal_of_one_byte() {
    let rng = &mut Rng::for_case(SEED, 7);
    for at in 0..EVERY_COMMAND.len() {
        let mut routine = EVERY_COMMAND.to_vec();
        routine.remove(at);
        agree_on_all(rng, &routine);
    }
}

/// Each cut with each byte as the last one left, so that a cut command has
/// operands of every kind.
#[test]
fn every_cut() {
    let rng = &mut Rng::for_case(SEED, 8);
    for len in 0..EVERY_COMMAND.len() {
        agree_on_all(rng, &EVERY_COMMAND[..len]);
        for byte in [0, 1, 2, 3, 4, 10, 16, 32, 255] {
            let mut routine = EVERY_COMMAND[..len].to_vec();
            routine.push(byte);
            agree_on_all(rng, &routine);
        }
    }
}

/// Lengths around the longest routine, of zeros and of a routine filled up
/// with commands of one byte too few, just enough and one too many.
#[test]
fn lengths_around_the_longest() {
    let rng = &mut Rng::for_case(SEED, 9);
    for len in [0, 1, 4095, 4096, 4097, 5000, 65_536] {
        agree_on_run(rng, &vec![0; len], &[7]);
        let mut routine = vec![1, 1, 8, 0, 0];
        while routine.len() + 4 <= len {
            routine.extend_from_slice(&[0x02, 0, 0]);
        }
        routine.push(0);
        agree_on_run(rng, &routine, &[7]);
        routine.resize(len.max(routine.len()), 0);
        agree_on_run(rng, &routine, &[7]);
    }
}
