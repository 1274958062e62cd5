//! Proofs as document 01 has them: steps with hints, and their bytes.

const END: u8 = 0x00;
const LITERAL: u8 = 0x01;
const HINT: u8 = 0x02;
const CLOSE: u8 = 0x03;

/// A clause, and the numbers of those that it follows from, in the order in
/// which each decides a variable, the last one conflicting.
#[derive(Clone, Debug, PartialEq, Eq)]
pub struct Step {
    pub literals: Vec<u32>,
    pub hints: Vec<u32>,
}

/// The commands of a proof, its end among them.
pub fn encode(steps: &[Step]) -> Vec<u8> {
    let mut bytes = Vec::new();
    for Step { literals, hints } in steps {
        put_all(LITERAL, literals, &mut bytes);
        put_all(HINT, hints, &mut bytes);
        bytes.push(CLOSE);
    }
    bytes.push(END);
    bytes
}

fn put_all(command: u8, arguments: &[u32], bytes: &mut Vec<u8>) {
    for argument in arguments {
        bytes.push(command);
        bytes.extend(argument.to_le_bytes());
    }
}

/// Keeps the steps that the last one needs, and numbers them again. The first
/// step's number is that of the clauses given.
pub fn trim(given: usize, mut steps: Vec<Step>) -> Vec<Step> {
    let mut is_needed = vec![false; steps.len()];
    if let Some(last) = is_needed.last_mut() {
        *last = true;
    }
    for (k, step) in steps.iter().enumerate().rev() {
        if is_needed[k] {
            for &hint in step.hints.iter().filter(|&&hint| hint as usize >= given) {
                is_needed[hint as usize - given] = true;
            }
        }
    }
    let mut numbers = vec![0; steps.len()];
    let mut next = given as u32;
    for (k, step) in steps.iter_mut().enumerate() {
        numbers[k] = next;
        next += u32::from(is_needed[k]);
        for hint in &mut step.hints {
            if *hint as usize >= given {
                *hint = numbers[*hint as usize - given];
            }
        }
    }
    let mut needed = is_needed.iter();
    steps.retain(|_| *needed.next().expect("one for each step"));
    steps
}

#[cfg(test)]
mod tests {
    use super::*;

    fn step(literals: &[u32], hints: &[u32]) -> Step {
        Step {
            literals: literals.to_vec(),
            hints: hints.to_vec(),
        }
    }

    #[test]
    fn trimming_keeps_what_the_last_step_needs() {
        let steps = vec![
            step(&[4], &[0, 1]),
            step(&[6], &[0, 2]),
            step(&[8], &[3, 1]),
            step(&[], &[5, 2]),
        ];
        let kept = [step(&[4], &[0, 1]), step(&[8], &[3, 1]), step(&[], &[4, 2])];
        assert_eq!(trim(3, steps), kept);
    }

    #[test]
    fn bytes_of_the_bench_proof() {
        let bytes = [2, 0, 0, 0, 0, 2, 2, 0, 0, 0, 3, 0];
        assert_eq!(encode(&[step(&[], &[0, 2])]), bytes);
    }
}
