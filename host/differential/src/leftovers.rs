//! The variables that are no parameters. Each begins with what the last pick
//! left in it, which its word in the input list says; nothing clears it.

use oracle::{Routine, Translation};
use std::ops::Range;

/// Their numbers, which are those of their input words too.
pub fn leftovers(routine: &Routine) -> Range<usize> {
    routine.header.parameters..routine.header.widths.len()
}

/// Whether a list has another word than 0 for some of them.
pub fn leaves_something(routine: &Routine, inputs: &[u32]) -> bool {
    inputs[leftovers(routine)].iter().any(|&word| word != 0)
}

/// The list with 0 for each of them, as if they were cleared before the pick.
pub fn cleared(routine: &Routine, inputs: &[u32]) -> Vec<u32> {
    let mut cleared = inputs.to_vec();
    cleared[leftovers(routine)].fill(0);
    cleared
}

/// The clauses with false in place of every bit of them. No clause is left out,
/// so each keeps its number, and a proof from these cites just what one that
/// took the variables for cleared would cite.
pub fn cleared_clauses(
    routine: &Routine,
    translation: &Translation,
    clauses: &[Vec<u32>],
) -> Vec<Vec<u32>> {
    let bits = translation.inputs[leftovers(routine)].concat();
    let instead = |&literal: &u32| match bits.contains(&(literal / 2)) {
        true => 3 - literal % 2,
        false => literal,
    };
    let clause = |clause: &Vec<u32>| clause.iter().map(instead).collect();
    clauses.iter().map(clause).collect()
}

/// How many input words there would be without those of the leftovers.
pub fn words_without(routine: &Routine) -> usize {
    routine.input_widths().len() - leftovers(routine).len()
}

/// Where their words stand in the lead of a report.
pub fn in_lead(routine: &Routine) -> Range<usize> {
    let Range { start, end } = leftovers(routine);
    let first = 2 + routine.ifs;
    first + 4 * start..first + 4 * end
}

#[cfg(test)]
mod tests {
    use super::*;
    use oracle::{parse, translate, Clauses};

    /// Two variables of 2 bits, of which one is a parameter, and a read.
    const ROUTINE: &[u8] = &[1, 2, 2, 2, 1, 1, 1, 0, 0x09, 0, 0, 1, 0x0A, 0, 1, 0, 0];

    #[test]
    fn words_and_places() {
        let routine = parse(ROUTINE).expect("a valid routine");
        assert_eq!(leftovers(&routine), 1..2);
        assert_eq!(words_without(&routine), 2);
        assert_eq!(in_lead(&routine), 6..10);
        assert!(leaves_something(&routine, &[0, 1, 0]));
        assert!(!leaves_something(&routine, &[3, 0, 3]));
        assert_eq!(cleared(&routine, &[3, 2, 1]), [3, 0, 1]);
    }

    /// The top bit of the leftover is variable 5, and {11} the last clause.
    #[test]
    fn last_clause_becomes_true() {
        let routine = parse(ROUTINE).expect("a valid routine");
        let mut clauses = Clauses::default();
        let translation = translate(ROUTINE, 0, 0, &[], &mut clauses).expect("a valid claim");
        let given = clauses.numbers();
        assert_eq!(given, [[2], [2], [11]]);
        let cleared = cleared_clauses(&routine, &translation, &given);
        assert_eq!(cleared, [[2], [2], [2]]);
    }
}
