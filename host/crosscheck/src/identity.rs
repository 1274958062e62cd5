//! Claims that hold, or nearly hold, by a law of arithmetic: two sums of the
//! same terms in different order, added to the same, differ by nothing, and so do
//! a dividend and the quotient times the divisor plus the remainder, by zero too.
//! What is added to the difference is the index. Their proofs are long.

use differential::rng::Rng;
use pelletperiod::Claim;

/// Two variables come before these.
const ONE: u8 = 2;
const OTHER: u8 = 3;
const ADDED: u8 = 4;
const ADD: u8 = 0x03;
const SUBTRACT: u8 = 0x04;
const MULTIPLY: u8 = 0x05;
const QUOTIENT: u8 = 0x0E;
const REMAINDER: u8 = 0x0F;
/// Wider divisions take the solvers long.
const WIDEST_DIVISION: usize = 5;

pub fn draw_identity(rng: &mut Rng) -> Claim {
    let (width, equal) = match rng.chance(30) {
        true => (rng.within(2, WIDEST_DIVISION) as u8, equal_by_division(rng)),
        false => (rng.within(2, 32) as u8, equal_sums(rng)),
    };
    let size = rng.pick(&[1_u16, 2, 5, 100, 4096]);
    let mut routine = vec![1, 5, width, width, width, width, width];
    routine.extend([rng.within(0, 5) as u8, 1]);
    routine.extend(size.to_le_bytes());
    routine.extend(equal);
    routine.extend([SUBTRACT, ONE, ONE, OTHER, 0x01, ADDED]);
    routine.extend(draw_added(rng, width, size).to_le_bytes());
    routine.extend([ADD, ONE, ONE, ADDED, 0x0A, 0, ONE, 0, 0x00]);
    Claim {
        routine,
        access: 0,
        side: rng.below(2) as u8,
        decisions: Vec::new(),
    }
}

/// Commands that give one variable and the other the same sum.
fn equal_sums(rng: &mut Rng) -> Vec<u8> {
    let mut terms: Vec<(u8, u8)> = (0..rng.within(2, 3))
        .map(|_| (rng.pick(&[ADD, SUBTRACT]), rng.below(2) as u8))
        .collect();
    let mut commands = equal_beginnings(rng);
    commands.extend(sum(ONE, &terms));
    terms.rotate_left(1);
    // Now and then they are not the same.
    if rng.chance(10) {
        terms[0].1 ^= 1;
    }
    commands.extend(sum(OTHER, &terms));
    commands
}

/// Commands after which both are the same: what was left in the one, or 0. Now
/// and then there are none, and each begins with what was left in it.
fn equal_beginnings(rng: &mut Rng) -> Vec<u8> {
    let set_to_zero = |d: u8| [0x01, d, 0, 0, 0, 0];
    match rng.below(10) {
        0 => Vec::new(),
        1..=5 => vec![0x02, OTHER, ONE],
        _ => [set_to_zero(ONE), set_to_zero(OTHER)].concat(),
    }
}

/// Commands that put the first variable together again from what its division
/// by the second leaves, and copy it; now and then the second.
fn equal_by_division(rng: &mut Rng) -> Vec<u8> {
    let divide = [[QUOTIENT, ONE, 0, 1], [REMAINDER, OTHER, 0, 1]];
    let put_together = [[MULTIPLY, ONE, ONE, 1], [ADD, ONE, ONE, OTHER]];
    let same = u8::from(rng.chance(10));
    [
        &divide.concat()[..],
        &put_together.concat(),
        &[0x02, OTHER, same],
    ]
    .concat()
}

/// Commands that add the terms up.
fn sum(d: u8, terms: &[(u8, u8)]) -> Vec<u8> {
    let commands = terms.iter();
    commands.flat_map(|&(sign, s)| [sign, d, d, s]).collect()
}

/// Something outside, on either side.
fn draw_added(rng: &mut Rng, width: u8, size: u16) -> u32 {
    let modulus = 1_u64 << width;
    let added = match rng.chance(50) {
        true => modulus - rng.within(1, 3) as u64,
        false => u64::from(size) + rng.below(3) as u64,
    };
    (added % modulus) as u32
}
