//! Routines that set all their variables before they use them, so that no gate
//! depends on an input: rounds of a generator of pseudo-random numbers, the last
//! number being the index, and beside it a sum that nothing depends on.

use oracle::{Outcome, Side};

const NUMBER: u8 = 0;
const FACTOR: u8 = 1;
const SUMMAND: u8 = 2;
const ASIDE: u8 = 3;

/// What the last pick left in the four variables; it is never used.
const LEFTOVERS: [u32; 4] = [0; 4];

/// Variables of the inputs' bits in the translation, after variable 1.
pub const INPUT_BITS: u32 = 4 * 32;

/// Those of the sum aside, after them: three for each of 32 bits.
pub const ASIDE_VARIABLES: std::ops::Range<u32> = 2 + INPUT_BITS..98 + INPUT_BITS;

/// So many rounds from the first seed whose last number is negative.
pub fn negative(rounds: usize) -> Vec<u8> {
    let below = |routine: &Vec<u8>| {
        let run = oracle::run(routine, &LEFTOVERS, 32, 32).expect("a valid routine");
        matches!(
            run.outcome,
            Outcome::Stopped {
                side: Side::Below,
                ..
            }
        )
    };
    // Far apart, for without rounds the seed itself is the last number.
    let seeds = (1..=u32::MAX).map(|number| number.wrapping_mul(0x9E37_79B9));
    let mut routines = seeds.map(|seed| routine(rounds, seed));
    routines.find(below).expect("about every second one is")
}

/// So many rounds, and an index beside them that is always below.
pub fn beside(rounds: usize) -> Vec<u8> {
    let mut bytes = rounded(rounds, 1);
    bytes.extend([0x01, FACTOR, 0, 0, 0, 0x80]);
    bytes.extend([0x0A, 0, FACTOR, ASIDE, 0x00]);
    bytes
}

fn routine(rounds: usize, seed: u32) -> Vec<u8> {
    let mut bytes = rounded(rounds, seed);
    bytes.extend([0x0A, 0, NUMBER, ASIDE, 0x00]);
    bytes
}

/// A routine as far as its access.
fn rounded(rounds: usize, seed: u32) -> Vec<u8> {
    // Four variables of 32 bits, no parameters, one array of 4,096.
    let mut bytes = vec![1, 4, 32, 32, 32, 32, 0, 1, 0x00, 0x10];
    bytes.extend([0x01, ASIDE, 0, 0, 0, 0]);
    bytes.extend([0x03, ASIDE, ASIDE, ASIDE]);
    for (d, c) in [
        (NUMBER, seed),
        (FACTOR, 1_664_525),
        (SUMMAND, 1_013_904_223),
    ] {
        bytes.extend([0x01, d]);
        bytes.extend(c.to_le_bytes());
    }
    for _ in 0..rounds {
        bytes.extend([0x05, NUMBER, NUMBER, FACTOR]);
        bytes.extend([0x03, NUMBER, NUMBER, SUMMAND]);
    }
    bytes
}
