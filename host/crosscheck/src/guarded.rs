//! Claims of any width about an access behind ifs that compare its index: where
//! one holds, its proof has to go through the arithmetic.

use differential::rng::Rng;
use pelletperiod::Claim;

/// Two variables come before these.
const INDEX: u8 = 2;
const BOUND: u8 = 3;
const VARIABLES: u8 = 4;
/// Wider products and divisions take the solvers long.
const WIDEST_PRODUCT: u8 = 6;

pub fn draw_guarded(rng: &mut Rng) -> Claim {
    let width = rng.within(2, 32) as u8;
    let size = rng.pick(&[1, 2, 3, 7, 100, 128, 1000, 4095, 4096]);
    let guards = rng.within(1, 4);
    let arms: Vec<u8> = (0..guards).map(|_| rng.below(2) as u8).collect();
    let mut routine = vec![1, VARIABLES, width, width, width, width];
    routine.extend([rng.within(0, VARIABLES.into()) as u8, 1]);
    routine.extend(u16::to_le_bytes(size));
    routine.extend(compute(rng, width));
    let access = vec![0x0A, 0, INDEX, 0];
    let inside =
        (arms.iter().rev()).fold(access, |inside, &arm| guard(rng, width, size, arm, inside));
    routine.extend(inside);
    routine.push(0x00);
    Claim {
        routine,
        access: 0,
        side: rng.below(2) as u8,
        decisions: arms.iter().map(|&arm| rng.pick(&[arm, arm, 2])).collect(),
    }
}

/// Commands that give the index its value, mostly from the two variables before
/// it alone, now and then from what was left in it too.
fn compute(rng: &mut Rng, width: u8) -> Vec<u8> {
    let mut commands = match rng.chance(80) {
        true => vec![0x02, INDEX, 0],
        false => Vec::new(),
    };
    let operations: &[u8] = match width <= WIDEST_PRODUCT {
        true => &[0x03, 0x04, 0x05, 0x0E, 0x0F],
        false => &[0x03, 0x04],
    };
    for _ in 0..rng.below(8) {
        let (s, t) = (rng.below(3) as u8, rng.below(3) as u8);
        commands.extend([rng.pick(operations), INDEX, s, t]);
    }
    commands
}

/// An if with the commands in one of its arms. Now and then its bound is not
/// set, and is what an if around it compared with or what was left.
fn guard(rng: &mut Rng, width: u8, size: u16, arm: u8, inside: Vec<u8>) -> Vec<u8> {
    let mut commands = Vec::new();
    if rng.chance(90) {
        commands.extend([0x01, BOUND]);
        commands.extend(draw_bound(rng, width, size).to_le_bytes());
    }
    let other = rng.pick(&[BOUND, BOUND, BOUND, 0, 1]);
    commands.extend([0x0B, rng.within(1, 9) as u8, INDEX, other]);
    let (first, other) = match arm {
        0 => (inside, Vec::new()),
        _ => (Vec::new(), inside),
    };
    [commands, first, vec![0x0C], other, vec![0x0D]].concat()
}

/// A bound near those that matter.
fn draw_bound(rng: &mut Rng, width: u8, size: u16) -> u32 {
    let (size, half) = (u64::from(size), 1_u64 << (width - 1));
    let modulus = 2 * half;
    let near = rng.pick(&[0, size, size, half, modulus - 1, modulus - size % modulus]);
    ((near + rng.pick(&[0, 1, modulus - 1])) % modulus) as u32
}
