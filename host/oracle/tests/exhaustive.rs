//! Narrow routines checked on every input list: unit propagation from the input
//! bits decides every variable of the translation, and the arrival and side
//! literals say what the run says.

use oracle::exhaustive::{check_every_input, input_bits, Lists, MAX_INPUT_BITS};
use oracle::{parse, translate, Clauses};

/// The commands d, s, t on variables of one width.
const OPERATIONS: [u8; 5] = [0x03, 0x04, 0x05, 0x0E, 0x0F];
const DIVISIONS: [u8; 2] = [0x0E, 0x0F];

/// Checks every access and side of a routine, with every list of decisions,
/// and adds up what the input lists came to.
fn check_all(routine: &[u8]) -> Lists {
    let parsed = parse(routine).expect("a valid routine");
    assert!(input_bits(&parsed) <= MAX_INPUT_BITS);
    let mut lists = Lists::default();
    for number in 0..3_usize.pow(parsed.ifs as u32) {
        let decisions = nth_decisions(number, parsed.ifs);
        for access in 0..parsed.accesses as u8 {
            for side in 0..2 {
                let found = check_one(routine, access, side, &decisions);
                lists.all += found.all;
                lists.arriving += found.arriving;
                lists.on_side += found.on_side;
                lists.past_zero += found.past_zero;
            }
        }
    }
    lists
}

fn check_one(routine: &[u8], access: u8, side: u8, decisions: &[u8]) -> Lists {
    let mut clauses = Clauses::default();
    let translation =
        translate(routine, access, side, decisions, &mut clauses).expect("an accepted lead");
    let lead = (access, side, decisions);
    check_every_input(routine, lead, &translation, &clauses).unwrap_or_else(|problem| {
        panic!("{routine:02X?} access {access} side {side} decisions {decisions:?}: {problem}")
    })
}

fn nth_decisions(mut number: usize, ifs: usize) -> Vec<u8> {
    let mut decisions = Vec::new();
    for _ in 0..ifs {
        decisions.push((number % 3) as u8);
        number /= 3;
    }
    decisions
}

/// The sizes around which an index of this width stops being able to be above.
fn sizes(width: u8) -> Vec<u8> {
    let half = 1_u8 << (width - 1);
    let sizes = [1, half - 1, half, half + 1];
    sizes.iter().copied().filter(|&size| size > 0).collect()
}

#[test]
fn indices() {
    for width in 1..=5 {
        for size in sizes(width) {
            let lists = check_all(&[1, 1, width, 1, 1, size, 0, 0x0A, 0, 0, 0, 0]);
            assert_eq!(lists.arriving, 2 << width);
            let half = 1 << (width - 1);
            let above = half - half.min(usize::from(size));
            assert_eq!(lists.on_side, half + above);
        }
    }
}

/// Into a variable of its own, whatever was left in it.
#[test]
fn operations() {
    for code in OPERATIONS {
        for width in 1..=3 {
            for size in sizes(width) {
                let header = [1, 3, width, width, width, 2, 1, size, 0];
                let commands = [code, 2, 0, 1, 0x0A, 0, 2, 0, 0];
                let lists = check_all(&[header.as_slice(), &commands].concat());
                assert_eq!(lists.past_zero > 0, DIVISIONS.contains(&code));
            }
        }
    }
}

/// The index is one of the operands itself, at sizes around the greatest index.
#[test]
fn operations_on_the_index() {
    for code in OPERATIONS {
        for width in 1..=5 {
            for size in sizes(width) {
                let header = [1, 2, width, width, 2, 1, size, 0];
                let commands = [code, 1, 0, 1, 0x0A, 0, 1, 0, 0];
                let lists = check_all(&[header.as_slice(), &commands].concat());
                assert_eq!(lists.past_zero > 0, DIVISIONS.contains(&code));
            }
        }
    }
}

/// The index is one of the operands itself, and the two operands are one.
#[test]
fn operations_in_place() {
    for code in OPERATIONS {
        for width in 1..=5 {
            for operands in [[0, 0, 1], [1, 0, 1], [0, 0, 0], [0, 1, 1]] {
                let header = [1, 2, width, width, 2, 1, 3, 0];
                let [d, s, t] = operands;
                let commands = [code, d, s, t, 0x0A, 0, d, 0, 0];
                let lists = check_all(&[header.as_slice(), &commands].concat());
                assert_eq!(lists.past_zero > 0, DIVISIONS.contains(&code));
            }
        }
    }
}

/// Comes to its access just where a third variable, a parameter or not, is the
/// result, so that every bit of it counts.
#[test]
fn results_of_operations() {
    for code in OPERATIONS {
        for (width, parameters) in [(1, 3), (1, 2), (2, 3), (2, 0), (3, 3), (3, 2)] {
            let header = [1, 3, width, width, width, parameters, 1, 1, 0];
            let commands = [
                [code, 0, 0, 1].as_slice(),
                &[0x0B, 0, 0, 2, 0x0A, 0, 2, 0, 0x0C, 0x0D, 0],
            ]
            .concat();
            let lists = check_all(&[header.as_slice(), &commands].concat());
            // One third word for each pair, for both sides and under the
            // decisions 0 and 2.
            assert_eq!(lists.arriving, 2 * 2 << (2 * width));
        }
    }
}

/// Quotient and remainder of each other's results, one of them in an arm that a
/// divisor of zero does not come to.
#[test]
fn divisions_in_arms() {
    for (code, other) in [(0x0E, 0x0F), (0x0F, 0x0E)] {
        for width in 1..=3 {
            let header = [1, 3, width, width, width, 2, 1, 1, 0];
            let commands = [
                [0x01, 2, 0, 0, 0, 0].as_slice(), // v2 := 0
                &[0x0B, 1, 1, 2],                 // if v1 ≠ v2
                &[code, 2, 0, 1],                 //   v2 := v0 by v1
                &[0x0A, 0, 2, 0],                 //   array 0 at v2 := v0
                &[0x0C, other, 0, 0, 1],          // else v0 := v0 by 0
                &[0x0D, other, 2, 0, 2],          // v2 := v0 by v2
                &[0x0A, 0, 2, 0, 0],              // array 0 at v2 := v0
            ]
            .concat();
            let lists = check_all(&[header.as_slice(), &commands].concat());
            assert!(lists.on_side > 0 && lists.on_side < lists.arriving);
            assert!(lists.past_zero > 0 && lists.past_zero < lists.arriving);
        }
    }
}

#[test]
fn changes_of_width() {
    for (code, from, to) in [
        (0x06, 5, 3),
        (0x06, 2, 1),
        (0x07, 3, 5),
        (0x08, 3, 5),
        (0x08, 1, 4),
    ] {
        for size in sizes(to) {
            let header = [1, 2, from, to, 1, 1, size, 0];
            check_all(&[header.as_slice(), &[code, 1, 0, 0x0A, 0, 1, 0, 0]].concat());
        }
    }
}

/// Accesses in both arms and behind the if, one arm changing an operand.
#[test]
fn relations() {
    for relation in 0..10 {
        for width in 1..=4 {
            let header = [1, 2, width, width, 2, 1, 2, 0];
            let commands = [
                [0x0B, relation, 0, 1].as_slice(),
                &[0x0A, 0, 0, 0, 0x03, 0, 0, 1],
                &[0x0C, 0x0A, 0, 1, 0, 0x0D],
                &[0x0A, 0, 0, 1, 0],
            ]
            .concat();
            let lists = check_all(&[header.as_slice(), &commands].concat());
            assert!(lists.on_side > 0 && lists.on_side < lists.arriving);
            assert!(lists.arriving < lists.all);
        }
    }
}

/// Ifs inside both arms of an if, reads in all of them, an access in between
/// and one after; the reads' words decide about later ifs.
#[test]
fn reads_in_nested_arms() {
    let header = [1, 3, 2, 2, 1, 1, 2, 1, 0, 2, 0];
    let commands = [
        [0x0B, 6, 0, 1].as_slice(), // if v0 <s v1
        &[0x09, 1, 0, 0],           //   v1 := array 0 at v0
        &[0x0B, 0, 0, 1],           //   if v0 = v1
        &[0x09, 0, 1, 1],           //     v0 := array 1 at v1
        &[0x0C, 0x02, 1, 0, 0x0D],  //   else v1 := v0
        &[0x0C],                    // else
        &[0x0B, 3, 1, 0],           //   if v1 ≤u v0
        &[0x06, 2, 0, 0x0C],        //     v2 := v0 cut, else
        &[0x09, 2, 1, 0, 0x0D],     //     v2 := array 1 at v0
        &[0x0D, 0x08, 1, 2],        // v1 := v2 sign-extended
        &[0x0A, 1, 1, 0],           // array 1 at v1 := v0
        &[0x0A, 0, 0, 1, 0],        // array 0 at v0 := v1
    ]
    .concat();
    let lists = check_all(&[header.as_slice(), &commands].concat());
    assert!(lists.on_side > 0 && lists.arriving > lists.on_side);
}

/// Eight ifs inside one another and an access in the innermost arm.
#[test]
fn depth_8() {
    let header = [1, 2, 2, 2, 2, 1, 1, 0];
    let mut commands = Vec::new();
    for relation in [5, 3, 9, 7, 0, 5, 3, 9] {
        commands.extend([0x0B, relation, 0, 1]);
    }
    commands.extend([0x0A, 0, 0, 0, 0x04, 0, 0, 1]);
    commands.extend([0x0C, 0x03, 1, 1, 0, 0x0D].repeat(8));
    commands.extend([0x0A, 0, 1, 0, 0]);
    let routine = [header.as_slice(), &commands].concat();
    for decisions in [
        [2; 8],
        [0; 8],
        [1; 8],
        [0, 2, 0, 2, 0, 2, 0, 2],
        [2, 2, 2, 2, 2, 2, 2, 1],
    ] {
        for (access, side) in [(0, 0), (0, 1), (1, 0), (1, 1)] {
            check_one(&routine, access, side, &decisions);
        }
    }
}

/// How many lists there are, arrive, and are on the side, at a write at this
/// variable into an array of 1; of four 2-bit variables none is set, and as many
/// are parameters as given.
fn at_variable(i: u8, side: u8, parameters: u8) -> [usize; 3] {
    let header = [1, 4, 2, 2, 2, 2, parameters, 1, 1, 0];
    let routine = [header.as_slice(), &[0x0A, 0, i, 0, 0]].concat();
    let lists = check_one(&routine, 0, side, &[]);
    [lists.all, lists.arriving, lists.on_side]
}

/// Each variable begins as any number, so that of its four words two are
/// negative and one is at or above the size, whichever variable it is.
#[test]
fn leftovers_are_any_numbers() {
    for i in 0..4 {
        for parameters in 0..=4 {
            assert_eq!(at_variable(i, 0, parameters), [256, 256, 128]);
            assert_eq!(at_variable(i, 1, parameters), [256, 256, 64]);
        }
    }
}

/// Copied, joined behind an if and read over: what is left in variables that are
/// no parameters, all that there are, decides about everything.
#[test]
fn leftovers_in_arms() {
    let header = [1, 3, 2, 2, 1, 0, 2, 1, 0, 2, 0];
    let commands = [
        [0x0B, 8, 0, 1].as_slice(), // if v0 >s v1
        &[0x02, 0, 1],              //   v0 := v1
        &[0x09, 2, 1, 0],           //   v2 := array 1 at v0
        &[0x0C, 0x07, 1, 2, 0x0D],  // else v1 := v2 zero-extended
        &[0x0A, 0, 1, 0],           // array 0 at v1 := v0
        &[0x08, 0, 2],              // v0 := v2 sign-extended
        &[0x0A, 1, 0, 0, 0],        // array 1 at v0 := v0
    ]
    .concat();
    let lists = check_all(&[header.as_slice(), &commands].concat());
    assert!(lists.on_side > 0 && lists.on_side < lists.arriving);
    assert!(lists.arriving < lists.all);
}
