//! Translations worked out by hand, and the refusals of a translation.

use oracle::exhaustive::{check_every_input, Lists};
use oracle::{measure, translate, Clauses, Literal, Refusal, Translation};

/// One 1-bit variable set to 1, then a write at it into an array of 1.
const WRITE_AT_ONE_BIT: &[u8] = &[1, 1, 1, 0, 1, 1, 0, 0x01, 0, 1, 0, 0, 0, 0x0A, 0, 0, 0, 0];

fn translated(bytes: &[u8], access: u8, side: u8, decisions: &[u8]) -> (Translation, Clauses) {
    let mut clauses = Clauses::default();
    let translation = translate(bytes, access, side, decisions, &mut clauses).expect("accepted");
    assert_eq!(
        measure(bytes, access, side, decisions).as_ref(),
        Ok(&translation)
    );
    assert_eq!(translation.clauses, clauses.len());
    let words: usize = clauses
        .first(clauses.len())
        .map(|clause| 1 + clause.len())
        .sum();
    assert_eq!(translation.words, words);
    (translation, clauses)
}

fn numbers(clauses: &Clauses) -> Vec<Vec<u32>> {
    let number = |literal: &Literal| literal.0;
    clauses
        .first(clauses.len())
        .map(|clause| clause.iter().map(number).collect())
        .collect()
}

fn refused(bytes: &[u8], access: u8, side: u8, decisions: &[u8]) -> (u8, usize) {
    let refusal = measure(bytes, access, side, decisions).expect_err("refused");
    (refusal.number, refusal.place)
}

fn checked(bytes: &[u8], access: u8, side: u8, decisions: &[u8]) -> Lists {
    let (translation, clauses) = translated(bytes, access, side, decisions);
    let lead = (access, side, decisions);
    check_every_input(bytes, lead, &translation, &clauses).unwrap_or_else(|e| panic!("{e}"))
}

/// Three clauses, {2}, {2} and {3}: the report of the bench section closes the
/// empty clause with the hints 0 and 2. Variable 2 is what was left in the
/// variable before it is set, and stands in no clause.
#[test]
fn bench_routine_below() {
    let (translation, clauses) = translated(WRITE_AT_ONE_BIT, 0, 0, &[]);
    assert_eq!(numbers(&clauses), [[2], [2], [3]]);
    let Translation {
        words,
        variables,
        arrival,
        side,
        ..
    } = translation;
    assert_eq!((words, variables), (6, 2));
    assert_eq!((arrival, side), (Literal::TRUE, Literal::TRUE));
    assert_eq!(translation.inputs, [[2]]);
}

/// Without its set the side is what was left: {2}, {2} and the opposite of
/// variable 2, which both words of one bit come to.
#[test]
fn bench_routine_without_its_set() {
    let routine = [1, 1, 1, 0, 1, 1, 0, 0x0A, 0, 0, 0, 0];
    let (translation, clauses) = translated(&routine, 0, 0, &[]);
    assert_eq!(numbers(&clauses), [[2], [2], [5]]);
    assert_eq!((translation.words, translation.variables), (6, 2));
    assert_eq!(translation.inputs, [[2]]);
    assert_eq!(
        checked(&routine, 0, 0, &[]),
        Lists {
            all: 2,
            arriving: 2,
            on_side: 1,
            past_zero: 0,
        }
    );
}

/// The bits of a 2-bit parameter are variables 2 and 3, those of a 3-bit
/// leftover 4 to 6, that of a 1-bit one 7. A read at the 1-bit one makes its
/// gates 8 and 9, and then the bits that it gives the 3-bit one.
#[test]
fn bits_of_leftovers_come_before_all_else() {
    for parameters in 0..=3 {
        let header = [1, 3, 2, 3, 1, parameters, 1, 1, 0];
        let commands = [0x09, 1, 0, 2, 0x0A, 0, 1, 0, 0];
        let routine = [header.as_slice(), &commands].concat();
        let (named, clauses) = translated(&routine, 0, 0, &[]);
        assert_eq!(numbers(&clauses), [[2], [2], [15]]);
        assert_eq!(named.inputs, [vec![2, 3], vec![4, 5, 6], vec![7], vec![]]);
        let (behind, clauses) = translated(&routine, 1, 0, &[]);
        // A size of 1 is never reached by one bit, so above is 3.
        let expected: &[&[u32]] = &[
            &[2],
            &[17, 15], // 8 = AND(-7, -above)
            &[17, 2],
            &[16, 14, 3],
            &[19, 2], // 9 = AND(true, 8)
            &[19, 16],
            &[18, 3, 17],
            &[18],
            &[25], // the top bit of what was read is variable 12
        ];
        assert_eq!(numbers(&clauses), expected);
        let read = vec![10, 11, 12];
        assert_eq!(behind.inputs, [vec![2, 3], vec![4, 5, 6], vec![7], read]);
        assert_eq!(behind.variables, 12);
    }
}

/// How many variables are parameters changes nothing in a translation.
#[test]
fn parameters_change_nothing() {
    let commands = [
        [0x0B, 2, 0, 1].as_slice(), // if v0 <u v1
        &[0x03, 1, 0, 1],           //   v1 := v0 + v1
        &[0x0C, 0x09, 0, 0, 1],     // else v0 := array 0 at v1
        &[0x0D, 0x0A, 0, 0, 0, 0],  // array 0 at v0 := v0
    ]
    .concat();
    let routine = |parameters: u8| {
        let header = [1, 3, 2, 2, 2, parameters, 1, 1, 0];
        [header.as_slice(), &commands].concat()
    };
    for (access, side, decision) in [(0, 0, 1), (0, 1, 2), (1, 0, 0), (1, 1, 2)] {
        let all = |parameters| {
            let (translation, clauses) =
                translated(&routine(parameters), access, side, &[decision]);
            (translation, numbers(&clauses))
        };
        for parameters in 0..3 {
            assert_eq!(all(parameters), all(3));
        }
    }
}

/// A size of 1 is more than a 1-bit index can hold: above is 3, no gates.
#[test]
fn bench_routine_above() {
    let (translation, clauses) = translated(WRITE_AT_ONE_BIT, 0, 1, &[]);
    assert_eq!(numbers(&clauses), [[2], [2], [2]]);
    assert_eq!(translation.side, Literal::FALSE);
}

/// Above with gates: a 2-bit parameter, a size of 1, bits of the size 2 and 3,
/// both top bits turned, then the size's bits opposite and a carry of 2.
#[test]
fn above_to_the_last_literal() {
    let routine = [1, 1, 2, 1, 1, 1, 0, 0x0A, 0, 0, 0, 0];
    let (translation, clauses) = translated(&routine, 0, 1, &[]);
    assert_eq!(translation.inputs, [[2, 3]]);
    assert_eq!(translation.variables, 9);
    let xor = |g: u32, a: u32, b: u32| {
        [
            [g + 1, a, b],
            [g + 1, a ^ 1, b ^ 1],
            [g, a ^ 1, b],
            [g, a, b ^ 1],
        ]
        .map(Vec::from)
    };
    let majority = |g: u32, a: u32, b: u32, c: u32| {
        let both = |x: u32, y: u32| vec![x ^ 1, y ^ 1, g];
        let neither = |x: u32, y: u32| vec![x, y, g + 1];
        [
            both(a, b),
            both(a, c),
            both(b, c),
            neither(a, b),
            neither(a, c),
            neither(b, c),
        ]
    };
    let mut expected = vec![vec![2]];
    expected.extend(xor(8, 4, 3)); // half of bit 0: index 4, size 2 turned to 3
    expected.extend(xor(10, 8, 2)); // sum with the carry 2
    expected.extend(majority(12, 4, 3, 2));
    expected.extend(xor(14, 7, 3)); // top of the index turned, of the size twice
    expected.extend(xor(16, 14, 12));
    expected.extend(majority(18, 7, 3, 12));
    // Less is the opposite of the last carry, above the opposite of that.
    expected.extend([vec![2], vec![19]]);
    assert_eq!(numbers(&clauses), expected);
}

#[rustfmt::skip]
const FREE_IF_CLAUSES: &[&[u32]] = &[
    &[2],
    // 4 = XOR(2, 3), 5 = AND(true, -4): the condition is literal 10.
    &[9, 4, 6], &[9, 5, 7], &[8, 5, 6], &[8, 4, 7],
    &[11, 2], &[11, 9], &[10, 3, 8],
    // 6 and 7 are the arrivals of the two arms.
    &[13, 2], &[13, 10], &[12, 3, 11],
    &[15, 2], &[15, 11], &[14, 3, 10],
    // 8 = MUX(5, true, 2) is what variable 0 has after the if.
    &[11, 3, 16], &[11, 2, 17], &[10, 5, 16], &[10, 4, 17],
    // 9 = AND(-6, -7), whose opposite is the arrival after the if.
    &[19, 13], &[19, 15], &[18, 12, 14],
    &[19], &[17],
];

/// A free if with one bit changed in its first arm, then the named access: the
/// equality's two gates, both arrivals, the join, the arrival after it.
#[test]
fn free_if_to_the_last_literal() {
    let routine = [
        1, 2, 1, 1, 2, 1, 1, 0, // two 1-bit parameters, an array of 1
        0x0B, 0, 0, 1, 0x01, 0, 1, 0, 0, 0, 0x0C, 0x0D, 0x0A, 0, 0, 0, 0,
    ];
    let (translation, clauses) = translated(&routine, 0, 0, &[2]);
    assert_eq!(translation.inputs, [[2], [3]]);
    assert_eq!(numbers(&clauses), FREE_IF_CLAUSES);
    assert_eq!(
        checked(&routine, 0, 0, &[2]),
        Lists {
            all: 4,
            arriving: 4,
            on_side: 3,
            past_zero: 0,
        }
    );
}

/// The translation stops inside the arm, and a decision takes away a gate.
#[test]
fn decided_if_and_an_access_inside_an_arm() {
    let routine = [
        1, 2, 1, 1, 2, 1, 1, 0, // two 1-bit parameters, an array of 1
        0x0B, 0, 0, 1, 0x0A, 0, 0, 0, // if v0 = v1, a write at v0
        0x0C, 0x09, 1, 0, 0, 0x0D, // else a read at v0 into v1
        0x0A, 0, 1, 0, 0, // a write at v1
    ];
    let (free, _) = translated(&routine, 0, 0, &[2]);
    assert_eq!((free.variables, free.arrival), (7, Literal(12)));
    let (first, _) = translated(&routine, 0, 0, &[0]);
    assert_eq!((first.variables, first.arrival), (6, Literal(12)));
    let (other, _) = translated(&routine, 0, 0, &[1]);
    assert_eq!((other.variables, other.arrival), (6, Literal::FALSE));
    assert_eq!(
        checked(&routine, 0, 0, &[0]),
        Lists {
            all: 8,
            arriving: 4,
            on_side: 2,
            past_zero: 0,
        }
    );
    // Named itself, the read gets no variables; before the last access it gets
    // one, after the two gates of its own.
    assert_eq!(
        translated(&routine, 1, 0, &[2]).0.inputs,
        [vec![2], vec![3], vec![]]
    );
    let (last, _) = translated(&routine, 2, 0, &[2]);
    assert_eq!(last.inputs, [[2], [3], [12]]);
}

#[test]
fn refusals_in_their_order() {
    // One if and one access.
    let routine = [
        1, 1, 8, 1, 1, 4, 0, 0x0B, 0, 0, 0, 0x0C, 0x0D, 0x0A, 0, 0, 0, 0,
    ];
    assert_eq!(refused(&[], 9, 9, &[9]), (1, 0));
    assert_eq!(refused(&routine[..17], 9, 9, &[9]), (3, 17));
    assert_eq!(refused(&routine, 9, 9, &[]), (11, 0));
    assert_eq!(refused(&routine, 9, 9, &[9, 9]), (11, 2));
    assert_eq!(refused(&routine, 1, 9, &[9]), (12, 0));
    assert_eq!(refused(&routine, 0, 2, &[9]), (12, 1));
    assert_eq!(refused(&routine, 0, 1, &[3]), (12, 2));
    // Without accesses no access is in range.
    assert_eq!(refused(&[1, 1, 8, 0, 0, 0], 0, 0, &[]), (12, 0));
    // A decision behind the access is looked at as well.
    let behind = [
        1, 1, 8, 1, 1, 4, 0, 0x0A, 0, 0, 0, 0x0B, 0, 0, 0, 0x0C, 0x0D, 0,
    ];
    assert_eq!(refused(&behind, 0, 0, &[255]), (12, 2));
}

#[test]
fn buffers_that_are_too_small() {
    let refusal = |place| Err(Refusal { number: 16, place });
    let bench = measure(WRITE_AT_ONE_BIT, 0, 0, &[]).expect("accepted");
    assert_eq!(bench.fit(6, 3), Ok(()));
    assert_eq!(bench.fit(5, 0), refusal(0));
    assert_eq!(bench.fit(6, 2), refusal(1));
    let limit = Translation {
        words: 16_777_216,
        ..bench.clone()
    };
    assert_eq!(limit.fit(usize::MAX, 3), Ok(()));
    let over = Translation {
        words: 16_777_217,
        ..bench
    };
    assert_eq!(over.fit(usize::MAX, 0), refusal(0));
}

/// The longest routine of 32-bit products needs some 64 million words.
#[test]
fn longest_routine_is_counted_without_storing() {
    let mut routine = vec![1, 1, 32, 1, 1, 1, 0];
    routine.extend([0x05, 0, 0, 0].repeat(1021));
    routine.extend([0x0A, 0, 0, 0, 0]);
    assert_eq!(routine.len(), 4096);
    // 528 ANDs of 10 words and 1,024 adder bits of 56 for each product.
    let words = 6 + 1021 * (528 * 10 + 1024 * 56);
    assert_eq!(measure(&routine, 0, 0, &[]).map(|t| t.words), Ok(words));
}
