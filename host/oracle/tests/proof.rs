//! The worked proofs, and one example for each way in which a refusal's number
//! and place are fixed.

use oracle::{check_proof, follow_proof, translate, Clauses, Literal, Refusal, Totals};
use std::collections::HashMap;

/// One 1-bit variable set to 1, then a write at it into an array of 1.
const ROUTINE: &[u8] = &[1, 1, 1, 0, 1, 1, 0, 0x01, 0, 1, 0, 0, 0, 0x0A, 0, 0, 0, 0];
/// Access, side and what was left in the variable, then the proof.
const REPORT: &[u8] = &[0, 0, 0, 0, 0, 0, 2, 0, 0, 0, 0, 2, 2, 0, 0, 0, 3, 0];
const LEAD: usize = 6;
/// Room for everything in these tests.
const AMPLE: (usize, usize) = (1000, 1000);

/// Variable 1; not both 2 and 3; one of them, with a doubled literal; each one
/// makes the other; and a clause that always holds. No values satisfy them.
const GIVEN: &[&[u32]] = &[&[2], &[5, 7], &[4, 6, 4], &[5, 6], &[4, 7], &[6, 7]];

#[derive(Clone, Copy)]
enum Command {
    Literal(u32),
    Hint(u32),
    Close,
    End,
    Byte(u8),
}
use Command::{Byte, Close, End, Hint, Literal as Lit};

fn encode(commands: &[Command]) -> Vec<u8> {
    let with = |kind: u8, argument: u32| [&[kind][..], &argument.to_le_bytes()].concat();
    let bytes = commands.iter().map(|&command| match command {
        Lit(literal) => with(1, literal),
        Hint(number) => with(2, number),
        Close => vec![3],
        End => vec![0],
        Byte(byte) => vec![byte],
    });
    bytes.flatten().collect()
}

fn owned(clauses: &[&[u32]]) -> Vec<Vec<u32>> {
    clauses.iter().map(|clause| clause.to_vec()).collect()
}

type Outcome = Result<(usize, usize), (u8, usize)>;

fn plain(verdict: Result<Totals, Refusal>) -> Outcome {
    verdict
        .map(|totals| (totals.steps, totals.hints))
        .map_err(|refusal| (refusal.number, refusal.place))
}

/// What the proof of these commands comes to against `GIVEN`.
fn checked(commands: &[Command], (words, starts): (usize, usize)) -> Outcome {
    let report = encode(commands);
    plain(check_proof(&report, 0, &owned(GIVEN), 3, words, starts))
}

fn ample(commands: &[Command]) -> Outcome {
    checked(commands, AMPLE)
}

/// Not 2: where it is true, clause 1 makes 3 false, and clause 3 conflicts.
const FIRST: &[Command] = &[Lit(5), Hint(1), Hint(3), Close];
/// The empty clause: not 2 by the step before, 3 by clause 2, and clause 4.
const SECOND: &[Command] = &[Hint(6), Hint(2), Hint(4), Close];

fn good() -> Vec<Command> {
    [FIRST, SECOND, &[End]].concat()
}

/// The good proof with these commands in place of those from one on.
fn from_on(kept: usize, rest: &[Command]) -> Vec<Command> {
    [&good()[..kept], rest].concat()
}

#[test]
fn bench_reports() {
    let mut clauses = Clauses::default();
    let translation = translate(ROUTINE, 0, 0, &[], &mut clauses).expect("accepted");
    let number = |literal: &Literal| literal.0;
    let clauses: Vec<Vec<u32>> = clauses
        .first(clauses.len())
        .map(|clause| clause.iter().map(number).collect())
        .collect();
    let variables = translation.variables as u32;
    let checked =
        |report: &[u8]| plain(check_proof(report, LEAD, &clauses, variables, 16384, 16384));
    assert_eq!(checked(REPORT), Ok((1, 2)));
    let with = |hints: &[u32]| {
        let hints: Vec<_> = hints.iter().map(|&number| Hint(number)).collect();
        [&REPORT[..LEAD], &encode(&hints), &[3, 0]].concat()
    };
    assert_eq!(checked(&with(&[0, 2])), Ok((1, 2)));
    assert_eq!(checked(&with(&[0, 1])), Err((20, 11)));
    assert_eq!(checked(&with(&[0, 2, 1])), Err((22, 16)));
    assert_eq!(checked(&REPORT[..17]), Err((17, 17)));
}

#[test]
fn good_proof() {
    assert_eq!(ample(&good()), Ok((2, 5)));
}

/// 17: unknown, cut short or missing, also after the empty clause.
#[test]
fn commands_that_are_not_there() {
    assert_eq!(ample(&[]), Err((17, 0)));
    assert_eq!(ample(&[Byte(4)]), Err((17, 0)));
    assert_eq!(ample(&from_on(1, &[Byte(0xFF)])), Err((17, 5)));
    assert_eq!(ample(&from_on(1, &[])), Err((17, 5)));
    let whole = encode(&good());
    for len in 0..whole.len() {
        let verdict = plain(check_proof(&whole[..len], 0, &owned(GIVEN), 3, 1000, 1000));
        let starts = [0, 5, 10, 15, 16, 21, 26, 31, 32];
        let place = starts.iter().rev().find(|&&start| start <= len);
        assert_eq!(verdict, Err((17, *place.expect("an offset"))), "{len}");
    }
    assert_eq!(ample(&from_on(8, &[Byte(1), Byte(0)])), Err((17, 32)));
    assert_eq!(ample(&from_on(8, &[Byte(7)])), Err((17, 32)));
}

#[test]
fn literals() {
    for literal in [0, 1, 8, 9, u32::MAX] {
        assert_eq!(ample(&[Lit(literal)]), Err((18, 0)), "{literal}");
    }
    for literal in [2, 3, 6, 7] {
        assert_eq!(ample(&[Lit(literal), End]), Err((23, 5)), "{literal}");
    }
    assert_eq!(ample(&[Lit(5), Lit(5)]), Err((18, 5)));
    assert_eq!(ample(&[Lit(5), Lit(4)]), Err((18, 5)));
    assert_eq!(ample(&from_on(2, &[Lit(6)])), Err((18, 10)));
    // In another step the same literals are fine again.
    assert_eq!(ample(&from_on(4, FIRST)), Err((17, 32)));
}

#[test]
fn hints() {
    assert_eq!(ample(&[Hint(6)]), Err((19, 0)));
    assert_eq!(ample(&[Hint(u32::MAX)]), Err((19, 0)));
    // A step's own number is not there before its close.
    assert_eq!(ample(&from_on(4, &[Hint(7)])), Err((19, 16)));
    // Two literals undecided, an opposite pair, one true.
    assert_eq!(ample(&[Hint(1)]), Err((20, 0)));
    assert_eq!(ample(&[Hint(5)]), Err((20, 0)));
    assert_eq!(ample(&[Hint(0), Hint(0)]), Err((20, 5)));
    // All but one false, but that one true.
    assert_eq!(ample(&[Lit(5), Hint(1), Hint(1)]), Err((20, 10)));
    // After the conflict 19 comes before 22, and 22 before 20.
    assert_eq!(ample(&from_on(3, &[Hint(6)])), Err((19, 15)));
    assert_eq!(ample(&from_on(3, &[Hint(3)])), Err((22, 15)));
    assert_eq!(ample(&from_on(3, &[Hint(0)])), Err((22, 15)));
    assert_eq!(ample(&from_on(3, &[Lit(0)])), Err((18, 15)));
}

#[test]
fn ends_and_closes() {
    assert_eq!(ample(&[Close]), Err((21, 0)));
    assert_eq!(ample(&from_on(2, &[Close])), Err((21, 10)));
    // What one step decided, the next one does not know.
    assert_eq!(ample(&from_on(4, &[Hint(1)])), Err((20, 16)));
    for kept in 0..8 {
        let refused = ample(&from_on(kept, &[End, Byte(9)]));
        assert!(matches!(refused, Err((23, _))), "{kept}");
    }
    for after in [Lit(0), Hint(99), Hint(0), Close] {
        assert_eq!(ample(&from_on(8, &[after, End])), Err((23, 32)));
    }
    assert_eq!(ample(&from_on(9, &[End])), Err((24, 33)));
    assert_eq!(ample(&from_on(9, &[Byte(9), Byte(9)])), Err((24, 33)));
}

/// The given clauses take 18 words, the steps 2 and 1.
#[test]
fn room() {
    assert_eq!(checked(&good(), (21, 8)), Ok((2, 5)));
    assert_eq!(checked(&good(), (20, 8)), Err((25, 31)));
    assert_eq!(checked(&good(), (19, 8)), Err((25, 0)));
    assert_eq!(checked(&good(), (18, 8)), Err((25, 0)));
    assert_eq!(checked(&good(), (21, 7)), Err((25, 31)));
    assert_eq!(checked(&good(), (21, 6)), Err((25, 15)));
    let two = [Lit(3), Lit(5), Hint(1), Hint(3), Close];
    assert_eq!(checked(&two, (20, 8)), Err((25, 5)));
    assert_eq!(checked(&two, (21, 8)), Err((17, 21)));
    // 18 and 21 come before 25.
    assert_eq!(checked(&[Lit(1)], (18, 8)), Err((18, 0)));
    assert_eq!(checked(&[Close], (18, 6)), Err((21, 0)));
    // An empty clause that is given needs no step of its own to be cited.
    let empty = [vec![]];
    let cite = encode(&[Hint(0), Close, End]);
    assert_eq!(plain(check_proof(&cite, 0, &empty, 0, 2, 2)), Ok((1, 1)));
    assert_eq!(plain(check_proof(&cite, 0, &empty, 0, 1, 2)), Err((25, 5)));
    assert_eq!(plain(check_proof(&[0], 0, &empty, 0, 2, 2)), Err((23, 0)));
}

#[test]
fn what_is_known_where_it_ends() {
    let given = owned(&GIVEN[..3]);
    let report = encode(&[Lit(6), Lit(3), Hint(0), Close]);
    let followed = follow_proof(&report, 0, &given, 3, 12, 5);
    assert_eq!(plain(followed.verdict), Err((20, 10)));
    assert!(followed.closed.is_empty());
    assert_eq!(followed.open, [6, 3]);
    assert_eq!(followed.decided, HashMap::from([(1, true), (3, false)]));
    // What a hint makes true is known with what the literals make false.
    let report = encode(&[Lit(6), Hint(0), Hint(2), End]);
    let followed = follow_proof(&report, 0, &given, 3, 12, 5);
    assert_eq!(plain(followed.verdict), Err((23, 15)));
    assert_eq!(followed.open, [6]);
    let decided = HashMap::from([(1, true), (2, true), (3, false)]);
    assert_eq!(followed.decided, decided);
    // Once the step is closed, nothing is decided.
    let report = encode(&[Lit(2), Hint(0), Close, Close]);
    let followed = follow_proof(&report, 0, &given, 3, 12, 5);
    assert_eq!(plain(followed.verdict), Err((21, 11)));
    assert_eq!(followed.closed, [[2]]);
    assert!(followed.open.is_empty() && followed.decided.is_empty());
    assert_eq!(followed.cited, 0);
    // A hint that is refused is not counted.
    let report = encode(&[Lit(2), Hint(0), Close, Hint(3), Hint(3)]);
    let followed = follow_proof(&report, 0, &given, 3, 12, 5);
    assert_eq!(plain(followed.verdict), Err((20, 16)));
    assert_eq!(followed.decided, HashMap::from([(1, true)]));
    assert_eq!(followed.cited, 1);
}
