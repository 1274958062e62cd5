//! How many variables are parameters changes nothing but what a check answers:
//! routines that differ in that number alone are run, translated and judged
//! alike.

use differential::case::Case;
use differential::compare::{compare, Verdict, Verdicts};
use differential::narrow::{draw_followed, draw_narrow};
use differential::plan::{draw_value, Plan};
use differential::proof_draft::encode;
use differential::report_case::ReportCase;
use differential::report_compare::compare_report;
use differential::report_draft::Report;
use differential::rng::Rng;
use differential::space_compare::compare_as_told;
use differential::translation_case::TranslationCase;
use oracle::{Finding, Outcome, Room};

const SEED: u64 = 0x50E1_1E7D_2026_0015;
/// So many routines are drawn to be compared with themselves.
const DRAWN: u64 = 2000;
const DRAWN_REPORTS: u64 = 500;
/// Enough for every report that is drawn.
const AMPLE: Room = Room {
    words: 16_384,
    starts: 16_384,
    marks: 16_384,
    values: 32,
    trail: 32,
};

fn agree(routine: &[u8], inputs: &[u32]) -> Verdicts {
    let case = Case::ample(&mut Rng::for_case(SEED, 0), routine, inputs);
    compare(&case).unwrap_or_else(|report| panic!("{report}"))
}

fn judged(routine: &[u8], report: &[u8]) -> Verdict<Finding> {
    let case = ReportCase::lending(&mut Rng::for_case(SEED, 2), routine, report, AMPLE);
    compare_report(&case).unwrap_or_else(|report| panic!("{report}"))
}

/// The routine with each number of parameters that it can have.
fn with_each_number(routine: &[u8]) -> Vec<Vec<u8>> {
    let variables = routine[1];
    let with = |parameters: u8| {
        let mut routine = routine.to_vec();
        routine[2 + usize::from(variables)] = parameters;
        routine
    };
    (0..=variables).map(with).collect()
}

/// How many variables are parameters stands in what a check answers, and
/// changes no run.
#[test]
fn runs_are_the_same_with_every_number_of_parameters() {
    let mut stopped = 0;
    for number in 0..DRAWN {
        let rng = &mut Rng::for_case(SEED + 3, number);
        let drawn = Plan::draw(rng).build(rng).encode();
        let parsed = oracle::parse(&drawn).expect("a valid routine");
        let draw = |&width: &u32| draw_value(rng, width as u8, &[]);
        let inputs: Vec<u32> = parsed.input_widths().iter().map(draw).collect();
        let expected = match agree(&drawn, &inputs).run {
            Verdict::Done(run) => run,
            verdict => panic!("{drawn:02X?} {inputs:?}: {verdict:?}"),
        };
        stopped += u64::from(expected.outcome != Outcome::Ended);
        for (parameters, routine) in with_each_number(&drawn).iter().enumerate() {
            let verdicts = agree(routine, &inputs);
            assert_eq!(verdicts.run, Verdict::Done(expected.clone()));
            let counts = oracle::Counts {
                parameters,
                ..parsed.counts()
            };
            assert_eq!(verdicts.check, Verdict::Done(counts));
        }
    }
    assert!(stopped * 5 > DRAWN, "{stopped}");
}

#[test]
fn translations_are_the_same_with_every_number_of_parameters() {
    for number in 0..DRAWN {
        let rng = &mut Rng::for_case(SEED + 4, number);
        let (drawn, parsed) = draw_narrow(rng);
        let decisions = draw_followed(rng, &drawn, &parsed);
        let lead = (rng.below(parsed.accesses) as u8, rng.below(2) as u8);
        let lead = (lead.0, lead.1, &decisions[..]);
        let needed = oracle::measure(&drawn, lead.0, lead.1, lead.2).expect("a valid lead");
        let made = |routine: &[u8]| {
            let lent = (needed.words, needed.clauses);
            let case = TranslationCase::lending(&mut Rng::for_case(SEED, 4), routine, lead, lent);
            let both = compare_as_told(&case).unwrap_or_else(|report| panic!("{report}"));
            let made = both.translated;
            assert_eq!(made.status, 0);
            let (words, starts) = (made.words.slice(), made.starts.slice());
            let answer = &made.answer.slice()[..3];
            assert_eq!(both.told.answer.slice()[..3], *answer);
            (words.to_vec(), starts.to_vec(), answer.to_vec())
        };
        let expected = made(&drawn);
        for routine in with_each_number(&drawn) {
            assert_eq!(made(&routine), expected);
        }
    }
}

/// Good reports, and the same with another witness, which may do as well or be
/// turned down.
#[test]
fn judging_is_the_same_with_every_number_of_parameters() {
    let mut accepted = 0;
    for number in 0..DRAWN_REPORTS {
        let rng = &mut Rng::for_case(SEED + 5, number);
        let Report { claim, refutation } = Report::draw(rng);
        let proof = encode(&refutation.commands);
        let good = [&refutation.lead[..], &proof].concat();
        assert!(matches!(judged(&claim.bytes, &good), Verdict::Done(_)));
        let draw = |&width: &u32| draw_value(rng, width as u8, &[]);
        let other: Vec<u32> = claim.routine.input_widths().iter().map(draw).collect();
        let other = [&claim.lead_with(&other)[..], &proof].concat();
        for report in [good, other] {
            let expected = judged(&claim.bytes, &report);
            accepted += u64::from(matches!(expected, Verdict::Done(_)));
            for routine in with_each_number(&claim.bytes) {
                assert_eq!(judged(&routine, &report), expected);
            }
        }
    }
    // Some of the other witnesses do as well, and some do not.
    assert!(accepted > DRAWN_REPORTS + 50, "{accepted}");
    assert!(accepted < 2 * DRAWN_REPORTS - 50, "{accepted}");
}
