//! Routines full of divisions of 32 bits, quotients and remainders drawn alike.

use differential::rng::Rng;

const QUOTIENT: u8 = 0x0E;
const REMAINDER: u8 = 0x0F;

/// Variables from 0 on are parameters, and so many after them are results, whose
/// leftovers are never used.
pub const PARAMETERS: usize = 4;
pub const RESULTS: usize = 4;

/// So many divisions of parameters by one another, and behind them an access at
/// the last result.
pub fn of_parameters(divisions: usize) -> Vec<u8> {
    let mut rng = Rng::for_case(1, 3);
    let mut bytes = head(PARAMETERS + RESULTS, PARAMETERS);
    let mut result = PARAMETERS as u8;
    for _ in 0..divisions {
        result = (PARAMETERS + rng.below(RESULTS)) as u8;
        let mut parameter = || rng.below(PARAMETERS) as u8;
        let (s, t) = (parameter(), parameter());
        bytes.extend([rng.pick(&[QUOTIENT, REMAINDER]), result, s, t]);
    }
    bytes.extend([0x0A, 0, result, result, 0x00]);
    bytes
}

/// So many divisions of constants, and behind them an access. The last of them
/// is a quotient by 0, which is all ones: the index -1.
pub fn of_constants(divisions: usize) -> Vec<u8> {
    const DIVIDEND: u8 = 0;
    const DIVISOR: u8 = 1;
    const RESULT: u8 = 2;
    let mut rng = Rng::for_case(1, 4);
    let mut bytes = head(3, 0);
    let mut divide = |op: u8, s: u32, t: u32| {
        for (variable, constant) in [(DIVIDEND, s), (DIVISOR, t)] {
            bytes.extend([0x01, variable]);
            bytes.extend(constant.to_le_bytes());
        }
        bytes.extend([op, RESULT, DIVIDEND, DIVISOR]);
    };
    for _ in 1..divisions {
        // Divisors of all lengths, so that quotients are too.
        let divisor = rng.word() as u32 >> rng.below(32);
        let op = rng.pick(&[QUOTIENT, REMAINDER]);
        divide(op, rng.word() as u32, divisor);
    }
    divide(QUOTIENT, rng.word() as u32, 0);
    bytes.extend([0x0A, 0, RESULT, RESULT, 0x00]);
    bytes
}

/// Variables of 32 bits, and one array of 4,096.
fn head(variables: usize, parameters: usize) -> Vec<u8> {
    let mut bytes = vec![1, variables as u8];
    bytes.extend(vec![32; variables]);
    bytes.extend([parameters as u8, 1, 0x00, 0x10]);
    bytes
}
