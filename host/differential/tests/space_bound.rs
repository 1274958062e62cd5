//! The most clauses, words and variables that there may be by the extent of a
//! routine, held against routines that come near it, and against a smaller
//! number that would not do.

use differential::draft::{Draft, Header, TOP};
use differential::plan::condition;
use differential::rng::Rng;
use differential::space_compare::compare_space;
use differential::translation_case::TranslationCase;
use oracle::{extent_of, Extent, Most};
use pellet::ANSWER_LEN;

const SEED: u64 = 0x50E1_1E7D_2026_0013;
const DRAWN: u64 = 1000;

fn extent(routine: &[u8]) -> Extent {
    extent_of(&oracle::parse(routine).expect("accepted"))
}

/// What the library tells of the first access, side 0, in a routine without ifs.
fn told(routine: &[u8]) -> Most {
    let mut answer = [0; ANSWER_LEN];
    assert_eq!(pellet::space(routine, 0, 0, &[], &mut answer), 0);
    Most {
        clauses: answer[0] as usize,
        words: answer[1] as usize,
        variables: answer[2] as usize,
    }
}

/// So many divisions of variables of one width, of which half are parameters,
/// then a write.
fn divisions(width: u8, variables: u8, count: usize) -> Vec<u8> {
    let mut routine = vec![1, variables];
    routine.extend(vec![width; usize::from(variables)]);
    routine.extend([variables / 2, 1, 1, 0]);
    routine.extend([0x0E, 0, 0, 0].repeat(count));
    routine.extend([0x0A, 0, 0, 0, 0]);
    routine
}

/// As many divisions as a routine can hold. All variables are used up but those
/// allowed for the write and the end: the bits of what was left take theirs too.
#[test]
fn longest_divisions_come_near() {
    for width in 1..=32 {
        let routine = divisions(width, 32, 1013);
        assert!(routine.len() + 4 > 4096 && routine.len() <= 4096);
        let (told, most) = (told(&routine), extent(&routine).most());
        let bits = usize::from(width) * (usize::from(width) + 1);
        assert_eq!(most.variables - told.variables, 2 * 4 * bits);
        assert!(told.clauses <= most.clauses && told.words <= most.words);
    }
}

/// What would be the most if a command had only 4 w w gates.
fn with_squares(extent: Extent) -> Most {
    let Extent {
        width: w,
        commands: n,
        ifs: f,
    } = extent;
    let variables = 1 + 32 * w + 4 * w * w * n + (32 * w + 1) * f;
    Most {
        clauses: 6 * variables,
        words: 24 * variables,
        variables,
    }
}

/// A division has 4 w more gates than that. With 2 w + 8 of them, and a write
/// and the end that have none, this is more than all else leaves over; with one
/// division fewer it is not.
#[test]
fn squares_are_too_few_at_every_width() {
    for width in 1..=32 {
        let count = 2 * usize::from(width) + 8;
        for (count, is_within) in [(count - 1, true), (count, false)] {
            let routine = divisions(width, 1, count);
            let (told, extent) = (told(&routine), extent(&routine));
            assert_eq!(told.variables <= with_squares(extent).variables, is_within);
            assert!(told.variables <= extent.most().variables);
        }
    }
}

/// Of one bit 21 divisions suffice to break all three: each has 8 variables, 36
/// clauses and 144 words, and squares leave 4, 24 and 96 for it.
#[test]
fn squares_are_too_few_for_clauses_and_words() {
    let routine = divisions(1, 1, 21);
    let (told, extent) = (told(&routine), extent(&routine));
    assert_eq!((extent.width, extent.commands, extent.ifs), (1, 23, 0));
    let expected = Most {
        clauses: 3 + 21 * 36,
        words: 6 + 21 * 144,
        variables: 2 + 21 * 8,
    };
    assert_eq!(told, expected);
    let squares = Most {
        clauses: 6 * 125,
        words: 24 * 125,
        variables: 125,
    };
    assert_eq!(with_squares(extent), squares);
    assert!(told.clauses > squares.clauses && told.words > squares.words);
    let most = Most {
        clauses: 6 * 217,
        words: 24 * 217,
        variables: 217,
    };
    assert_eq!(extent.most(), most);
}

/// A routine of divisions in all places, with few ifs, all variables being of
/// one width and any number of them parameters, and a write behind all of it; and
/// its decisions.
fn draw_near(rng: &mut Rng) -> (Vec<u8>, Vec<u8>) {
    let mut draft = Draft::new(Header {
        widths: vec![rng.within(1, 32) as u8; 32],
        parameters: rng.within(0, 32) as u8,
        sizes: vec![1],
    });
    let ifs = rng.pick(&[0, 1, 1, 2]);
    for _ in 0..ifs {
        let list = draft.list_at(rng, 0..=1).unwrap_or(TOP);
        let head = condition(rng, &draft.header);
        draft.insert_if(rng, list, head);
    }
    for _ in 0..rng.within(30, 100) {
        let mut any = || rng.below(32) as u8;
        let (d, s, t) = (any(), any(), any());
        let division = vec![rng.pick(&[0x0E, 0x0F]), d, s, t];
        let list = draft.any_list(rng);
        draft.insert(rng, list, division);
    }
    let mut routine = draft.encode();
    routine.pop();
    routine.extend([0x0A, 0, rng.below(32) as u8, 0, 0]);
    let decisions = (0..ifs).map(|_| rng.pick(&[0, 1, 2, 2])).collect();
    (routine, decisions)
}

/// The comparison holds each of them against the most.
#[test]
fn drawn_routines_come_near() {
    for number in 0..DRAWN {
        let rng = &mut Rng::for_case(SEED, number);
        let (routine, decisions) = draw_near(rng);
        let lead = (0, rng.below(2) as u8, decisions.as_slice());
        let case = TranslationCase::lending(rng, &routine, lead, (0, 0));
        let told = compare_space(&case).unwrap_or_else(|report| panic!("case {number}, {report}"));
        assert_eq!(told.status, 0);
        let variables = told.answer.slice()[2] as usize;
        assert!(4 * variables > 3 * extent(&routine).most().variables);
    }
}
