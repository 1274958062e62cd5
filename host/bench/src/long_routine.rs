//! A routine of 4,096 bytes with all kinds of commands but divisions, as many ifs
//! and accesses as there may be, and inputs with which it runs to its end.

use differential::rng::Rng;

const BYTES: usize = 4096;
/// Those from 0 on have 32 bits, then there are two of 16 and two of 8; the
/// last is the index and only ever set.
const WIDTHS: [u8; 9] = [32, 32, 32, 32, 16, 16, 8, 8, 13];
const INDEX: u8 = 8;
/// The first so many are parameters; the last pick left 0 in all others.
const PARAMETERS: usize = 2;
const LEFTOVERS: usize = WIDTHS.len() - PARAMETERS;
const IFS: usize = 32;
const ACCESSES: usize = 64;

pub fn draw(seed: u64) -> (Vec<u8>, Vec<u32>) {
    let mut rng = Rng::for_case(seed, 2);
    let mut bytes = vec![1, WIDTHS.len() as u8];
    bytes.extend(WIDTHS);
    // One array of 4,096.
    bytes.extend([PARAMETERS as u8, 1, 0x00, 0x10]);
    for part in 0..IFS {
        for _ in 0..ACCESSES / IFS {
            set(&mut rng, &mut bytes, INDEX, 4095);
            bytes.extend([0x09, rng.below(4) as u8, 0, INDEX]);
        }
        bytes.extend([
            0x0B,
            rng.below(10) as u8,
            rng.below(4) as u8,
            rng.below(4) as u8,
        ]);
        let end = bytes.len() + (BYTES - bytes.len()) / (IFS - part) / 2;
        fill(&mut rng, &mut bytes, end - 16);
        bytes.push(0x0C);
        fill(&mut rng, &mut bytes, end);
        bytes.push(0x0D);
    }
    fill(&mut rng, &mut bytes, BYTES - 16);
    pad(&mut bytes);
    // All accesses are reads, and of 32 bits, as the parameters are.
    let mut words = |count| (0..count).map(|_| rng.word() as u32).collect::<Vec<_>>();
    let inputs = [words(PARAMETERS), vec![0; LEFTOVERS], words(ACCESSES)].concat();
    (bytes, inputs)
}

fn set(rng: &mut Rng, bytes: &mut Vec<u8>, d: u8, most: usize) {
    bytes.extend([0x01, d]);
    bytes.extend((rng.within(0, most) as u32).to_le_bytes());
}

/// Simple commands up to about this length.
fn fill(rng: &mut Rng, bytes: &mut Vec<u8>, to: usize) {
    while bytes.len() < to {
        let wide = |rng: &mut Rng| rng.below(4) as u8;
        let half = |rng: &mut Rng| 4 + rng.below(2) as u8;
        let (op, d, s, t) = (rng.within(1, 8) as u8, wide(rng), wide(rng), wide(rng));
        match op {
            0x01 => set(rng, bytes, d, u32::MAX as usize),
            0x02 => bytes.extend([op, d, s]),
            0x03..=0x05 => bytes.extend([op, d, s, t]),
            0x06 => bytes.extend([op, half(rng), s]),
            _ => bytes.extend([op, d, half(rng)]),
        }
    }
}

/// Copies and sums until only the end is left to come.
fn pad(bytes: &mut Vec<u8>) {
    while bytes.len() + 1 < BYTES {
        let left = BYTES - 1 - bytes.len();
        if left % 3 == 0 {
            bytes.extend([0x02, 0, 1]);
        } else {
            bytes.extend([0x03, 0, 1, 2]);
        }
    }
    bytes.push(0x00);
}
