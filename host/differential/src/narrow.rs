//! Routines with few input bits, those of all variables and of the reads, so that
//! every input list can be gone through.

use crate::draft::Header;
use crate::plan::Plan;
use crate::rng::Rng;
use crate::translation_case::draw_sizes;
use oracle::exhaustive::{input_bits, MAX_INPUT_BITS};
use oracle::Routine;

/// A valid routine with accesses, and its bytes.
pub fn draw_narrow(rng: &mut Rng) -> (Vec<u8>, Routine) {
    loop {
        let bytes = draw_plan(rng).build(rng).encode();
        let routine = oracle::parse(&bytes).expect("a valid routine");
        if (1..=MAX_INPUT_BITS).contains(&input_bits(&routine)) {
            return (bytes, routine);
        }
    }
}

fn draw_plan(rng: &mut Rng) -> Plan {
    let variables = rng.within(1, 4);
    let most = rng.pick(&[1, 2, 2, 3, 3, 4]);
    let mut header = Header {
        widths: (0..variables).map(|_| rng.within(1, most) as u8).collect(),
        parameters: rng.below(variables + 1) as u8,
        sizes: vec![1; rng.within(1, 2)],
    };
    draw_sizes(rng, &mut header);
    Plan {
        header,
        ifs: rng.pick(&[0, 1, 2, 3, 4, 9]),
        accesses: rng.within(1, 7),
        plain: rng.below(7),
        deep: rng.chance(50),
        steady: rng.pick(&[0, 0, 50]),
        stray: false,
        full: false,
    }
}

/// Decisions that runs often keep to: some list's own arms, mostly made free.
pub fn draw_followed(rng: &mut Rng, bytes: &[u8], routine: &Routine) -> Vec<u8> {
    let inputs: Vec<u32> = routine
        .input_widths()
        .iter()
        .map(|&width| rng.below(1 << width) as u32)
        .collect();
    let run = oracle::run(bytes, &inputs, 32, 32).expect("an accepted list");
    let free = rng.pick(&[0, 40, 80]);
    run.trail
        .iter()
        .map(|arm| match rng.below(100) {
            k if k < free => 2,
            k if k < 90 => arm.byte(),
            _ => rng.below(3) as u8,
        })
        .collect()
}
