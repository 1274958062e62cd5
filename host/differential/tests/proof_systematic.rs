//! Proofs worked out by hand, the long one, and the limits of the buffers,
//! compared with the oracle entry by entry.

use differential::damage::Text;
use differential::lent::Lent;
use differential::long_proof::{long_proof, spoil_step};
use differential::proof_case::ProofCase;
use differential::proof_compare::compare_proof;
use differential::proof_damage::Attempt;
use differential::proof_draft::{encode, Command, Refutation};
use differential::proof_expected::ProofVerdict;
use differential::rng::Rng;
use oracle::{Refusal, Totals, MAX_ENTRIES};

const SEED: u64 = 0x50E1_1E7D_2026_0009;

fn refutation(clauses: &[&[u32]], variables: u32, commands: &[Command]) -> Refutation {
    Refutation {
        clauses: clauses.iter().map(|clause| clause.to_vec()).collect(),
        variables,
        commands: commands.to_vec(),
        lead: vec![0, 0],
    }
}

/// What library and oracle both come to, with so many words and starts lent.
fn agreed(refutation: &Refutation, words: usize, starts: usize) -> ProofVerdict {
    let text = Text::new(encode(&refutation.commands));
    let attempt = Attempt {
        text,
        words,
        starts,
    };
    let case = ProofCase::lending(&mut Rng::for_case(SEED, 0), refutation, attempt);
    let (verdict, _) = compare_proof(&case).unwrap_or_else(|report| panic!("{report}"));
    verdict
}

fn done(steps: usize, hints: usize) -> ProofVerdict {
    ProofVerdict::Done(Totals { steps, hints })
}

fn refused(number: u8, place: usize) -> ProofVerdict {
    ProofVerdict::Refused(Refusal { number, place })
}

/// The report of the bench section and its three damaged forms. Its lead has an
/// input word, of which variable 2 is the bit.
#[test]
fn bench_reports() {
    let bench = |hints: &[u32], rest: &[Command]| {
        let hints = hints.iter().map(|&number| Command::Hint(number));
        let commands: Vec<_> = hints.chain(rest.iter().copied()).collect();
        let mut given = refutation(&[&[2], &[2], &[3]], 2, &commands);
        given.lead = vec![0; 6];
        agreed(&given, 16_384, 16_384)
    };
    let rest = [Command::Close, Command::End];
    assert_eq!(bench(&[0, 2], &rest), done(1, 2));
    assert_eq!(bench(&[0, 1], &rest), refused(20, 11));
    assert_eq!(bench(&[0, 2, 1], &rest), refused(22, 16));
    assert_eq!(bench(&[0, 2], &rest[..1]), refused(17, 17));
}

#[test]
fn long_proof_and_one_bad_step() {
    let mut long = long_proof(1_000_000);
    let (words, starts) = long.needed();
    assert_eq!(agreed(&long, words, starts), done(100_000, 1_199_999));
    let place = long.lead.len() + spoil_step(&mut long, 99_997);
    assert_eq!(agreed(&long, words, starts), refused(20, place));
}

/// A chain of implications. The first step follows it as far as its last
/// variable, so that all but one are decided, and the second follows it again
/// from its beginning, which it can only if none is decided any more. The
/// library keeps a list of 4,096 decided literals, and steps decide fewer, as
/// many, and more.
#[test]
fn steps_that_decide_thousands() {
    for decided in [1, 4095, 4096, 4097, 10_000] {
        let last = decided + 1;
        let mut clauses = vec![vec![2]];
        clauses.extend((1..last).map(|variable| vec![2 * variable + 1, 2 * variable + 2]));
        clauses.push(vec![2 * last + 1]);
        let mut commands = vec![Command::Literal(2 * last)];
        commands.extend((0..last).map(Command::Hint));
        commands.push(Command::Close);
        commands.extend((0..=last).map(Command::Hint));
        commands.extend([Command::Close, Command::End]);
        let given = Refutation {
            clauses,
            variables: last,
            commands,
            lead: vec![0, 0],
        };
        let (words, starts) = given.needed();
        let hints = 2 * last as usize + 1;
        assert_eq!(agreed(&given, words, starts), done(2, hints));
    }
}

/// One clause takes nearly all words that are ever used, and more are lent:
/// two steps of one and no literal find room for exactly their three words.
#[test]
fn words_beyond_the_limit() {
    let commands = [
        Command::Literal(4),
        Command::Hint(1),
        Command::Hint(0),
        Command::Close,
        Command::Hint(1),
        Command::Hint(0),
        Command::Close,
        Command::End,
    ];
    let verdict = |free: usize| {
        let doubled = vec![2; MAX_ENTRIES - 3 - free];
        let given = refutation(&[&doubled, &[3]], 2, &commands);
        agreed(&given, MAX_ENTRIES + 5, 9)
    };
    assert_eq!(verdict(3), done(2, 4));
    assert_eq!(verdict(2), refused(25, 2 + 26));
    assert_eq!(verdict(1), refused(25, 2));
    assert_eq!(verdict(0), refused(25, 2));
}

/// More starts and marks are lent than are ever used: where a proof is accepted
/// or refused, those that are used are zeroed, and otherwise none is.
#[test]
fn starts_and_marks_beyond_the_limit() {
    let commands = [Command::Hint(0), Command::Close, Command::End];
    let verdict = |kept: usize, variables: u32| {
        let given = refutation(&[&[]], variables, &commands[..kept]);
        let mut attempt = Attempt::good(&given);
        (attempt.words, attempt.starts) = (2, MAX_ENTRIES + 5);
        let rng = &mut Rng::for_case(SEED, 2);
        let mut case = ProofCase::lending(rng, &given, attempt);
        case.marks = Lent::noise(rng, MAX_ENTRIES + 5);
        let (verdict, _) = compare_proof(&case).unwrap_or_else(|report| panic!("{report}"));
        verdict
    };
    let last = MAX_ENTRIES as u32 - 1;
    for variables in [0, 7, last] {
        assert_eq!(verdict(3, variables), done(1, 1));
        assert_eq!(verdict(1, variables), refused(17, 7));
    }
    assert_eq!(verdict(3, last + 1), ProofVerdict::NotStanding);
}

/// A report of 16,777,216 bytes is looked at, a longer one is not.
#[test]
fn reports_at_the_limit() {
    let commands = [Command::Hint(0), Command::Close, Command::End];
    let given = refutation(&[&[]], 0, &commands);
    let verdict = |len: usize| {
        let mut attempt = Attempt::good(&given);
        attempt.text.bytes.resize(len - given.lead.len(), 0);
        let case = ProofCase::lending(&mut Rng::for_case(SEED, 1), &given, attempt);
        let (verdict, _) = compare_proof(&case).unwrap_or_else(|report| panic!("{report}"));
        verdict
    };
    assert_eq!(verdict(9), done(1, 1));
    assert_eq!(verdict(MAX_ENTRIES), refused(24, 9));
    assert_eq!(verdict(MAX_ENTRIES + 1), ProofVerdict::NotStanding);
}
