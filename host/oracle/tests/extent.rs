//! The most that a translation takes, held against translations that come near
//! it.

use oracle::{extent_of, measure, parse, Most, Translation};

/// What a translation takes and the most that it may take.
fn measured(routine: &[u8], access: u8, side: u8, decisions: &[u8]) -> (Translation, Most) {
    let translation = measure(routine, access, side, decisions).expect("accepted");
    let most = extent_of(&parse(routine).expect("accepted")).most();
    assert!(translation.variables <= most.variables, "{routine:02X?}");
    assert!(translation.clauses <= most.clauses, "{routine:02X?}");
    assert!(translation.words <= most.words, "{routine:02X?}");
    (translation, most)
}

/// So many divisions of 32 variables, all of one width, and a write.
fn divisions(width: u8, parameters: u8, count: usize) -> Vec<u8> {
    let mut routine = vec![1, 32];
    routine.extend([width; 32]);
    routine.extend([parameters, 1, 1, 0]);
    routine.extend([0x0E, 0, 1, 2].repeat(count));
    routine.extend([0x0A, 0, 0, 0, 0]);
    routine
}

/// All variables are used up but those allowed for the write and the end, be
/// the bits of the 32 variables those of parameters or not.
#[test]
fn divisions_take_all_that_is_allowed_for_them() {
    for width in 1..=32 {
        for (count, parameters) in [(0, 32), (1, 0), (2, 31), (10, 32), (10, 0)] {
            let routine = divisions(width, parameters, count);
            let (translation, most) = measured(&routine, 0, 0, &[]);
            let bits = usize::from(width) * (usize::from(width) + 1);
            assert_eq!(most.variables - translation.variables, 2 * 4 * bits);
        }
    }
}

/// Two empty arms are allowed more than an if takes at any width, and so are
/// 32 variables that differ at its end.
#[test]
fn ifs_at_every_width() {
    for width in 1..=32 {
        let header = [vec![1, 32], vec![width; 32], vec![32, 1, 1, 0]].concat();
        let all_set: Vec<u8> = (0..32).flat_map(|d| [0x01, d, 0, 0, 0, 0]).collect();
        for relation in 0..10 {
            for arms in [vec![], all_set.clone()] {
                let commands = [&[0x0B, relation, 0, 1], arms.as_slice(), &[0x0C, 0x0D]].concat();
                let routine = [&header, commands.as_slice(), &[0x0A, 0, 0, 0, 0]].concat();
                for decision in 0..3 {
                    measured(&routine, 0, 1, &[decision]);
                }
            }
        }
    }
}

/// Reads of the widest index into the widest variable, one behind the other.
#[test]
fn accesses_at_every_width() {
    for width in 1..=32 {
        let header = [1, 1, width, 1, 1, 1, 0];
        let routine = [&header, [0x09, 0, 0, 0].repeat(64).as_slice(), &[0]].concat();
        for (access, side) in [(0, 0), (0, 1), (63, 0), (63, 1)] {
            measured(&routine, access, side, &[]);
        }
    }
}
