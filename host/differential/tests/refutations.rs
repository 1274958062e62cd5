//! The drawn proofs are good, damage brings out every refusal of a proof, and
//! nothing is closed that does not follow: all by the oracle alone.

use differential::proof_damage::{Attempt, AIMS};
use differential::proof_draft::{encode, Command, Refutation};
use differential::refutations::{draw_refutation, satisfies};
use differential::rng::Rng;
use differential::seeded::show;
use oracle::{check_proof, follow_proof, Totals};
use std::collections::{BTreeMap, BTreeSet};

const SEED: u64 = 0x50E1_1E7D_2026_0005;
const GOOD: u64 = 3000;
const DAMAGED_SEED: u64 = 0x50E1_1E7D_2026_0006;
const DAMAGED: u64 = 9000;
const WEAKENED_SEED: u64 = 0x50E1_1E7D_2026_000A;
const WEAKENED: u64 = 4000;
/// Room for every drawn proof.
const AMPLE: usize = 1 << 20;

/// Whether some hint of the proof has one of these clauses.
fn cites(refutation: &Refutation, wanted: impl Fn(usize) -> bool) -> bool {
    let is_wanted = |command: &Command| match *command {
        Command::Hint(number) => wanted(number as usize),
        _ => false,
    };
    refutation.commands.iter().any(is_wanted)
}

fn has_doubled(clause: &[u32]) -> bool {
    (1..clause.len()).any(|k| clause[..k].contains(&clause[k]))
}

/// Good with just enough room, whatever the kind of clauses.
#[test]
fn drawn_proofs_are_good() {
    let (mut steps, mut hints, mut longest) = (0, 0, 0);
    let (mut over_steps, mut over_doubled, mut many_literals, mut claims) = (0, 0, 0, 0);
    for case in 0..GOOD {
        let refutation = draw_refutation(&mut Rng::for_case(SEED, case));
        let given = refutation.clauses.len();
        let (words, starts) = refutation.needed();
        let proof = encode(&refutation.commands);
        let clauses = &refutation.clauses;
        let verdict = check_proof(&proof, 0, clauses, refutation.variables, words, starts);
        let totals: Totals = verdict.unwrap_or_else(|refusal| {
            panic!("case {case}: {refusal:?} of {refutation:?}");
        });
        // Only the translation of a claim has so many variables.
        claims += u32::from(refutation.variables > 13);
        assert_eq!(totals.steps, refutation.steps().len());
        steps += totals.steps;
        hints += totals.hints;
        longest = longest.max(totals.steps);
        over_steps += u32::from(cites(&refutation, |number| number >= given));
        over_doubled += u32::from(cites(&refutation, |number| {
            number < given && has_doubled(&clauses[number])
        }));
        let literals = refutation
            .steps()
            .into_iter()
            .map(|step| step.literals.len());
        many_literals += u32::from(literals.max() >= Some(4));
    }
    show(&format!(
        "{GOOD} proofs: {steps} steps, {hints} hints, the longest of {longest} steps; \
         citing steps {over_steps}, citing doubled literals {over_doubled}, \
         with steps of four literals {many_literals}, claims {claims}\n"
    ));
    assert!(over_steps > 1000 && over_doubled > 1000 && many_literals > 100 && claims > 200);
}

/// Every refusal at least a hundred times and at many places, whatever the
/// damage aimed at.
#[test]
fn damage_brings_out_every_refusal() {
    let mut places: BTreeMap<u8, (u64, BTreeSet<usize>)> = BTreeMap::new();
    let (mut hit, mut unharmed) = (0, 0);
    for case in 0..DAMAGED {
        let rng = &mut Rng::for_case(DAMAGED_SEED, case);
        let refutation = draw_refutation(rng);
        let aim = rng.within(*AIMS.start(), *AIMS.end());
        let attempt = Attempt::damaged(rng, &refutation, aim);
        let (proof, clauses) = (&attempt.text.bytes, &refutation.clauses);
        let (words, starts) = (attempt.words, attempt.starts);
        match check_proof(proof, 0, clauses, refutation.variables, words, starts) {
            Ok(_) => unharmed += 1,
            Err(refusal) => {
                hit += u64::from(usize::from(refusal.number) == aim);
                let (count, places) = places.entry(refusal.number).or_default();
                *count += 1;
                places.insert(refusal.place);
            }
        }
    }
    show(&format!(
        "{DAMAGED} damaged: {unharmed} good all the same, {hit} as aimed at\n"
    ));
    for (number, (count, places)) in &places {
        let most = places.iter().max().expect("some place");
        let places = places.len();
        show(&format!(
            "refused {number}: {count} times at {places} places up to {most}\n"
        ));
    }
    for aim in AIMS {
        let (count, places) = &places[&(aim as u8)];
        assert!(*count >= 100 && places.len() >= 40, "too few of {aim}");
    }
}

/// Where a given clause is made one that always holds, others may be
/// satisfied: then nothing is accepted, and what was closed until then holds
/// wherever they do.
#[test]
fn what_is_closed_follows() {
    let (mut satisfied, mut closed) = (0, 0);
    for case in 0..WEAKENED {
        let rng = &mut Rng::for_case(WEAKENED_SEED, case);
        let mut refutation = draw_refutation(rng);
        if refutation.variables > 13 {
            continue;
        }
        let weakened = rng.below(refutation.clauses.len());
        refutation.clauses[weakened] = vec![2, 3];
        let proof = encode(&refutation.commands);
        let (given, variables) = (&refutation.clauses, refutation.variables);
        let followed = follow_proof(&proof, 0, given, variables, AMPLE, AMPLE);
        let models: Vec<u32> = (0..1 << variables)
            .filter(|&assignment| given.iter().all(|clause| satisfies(assignment, clause)))
            .collect();
        for clause in &followed.closed {
            let holds = |assignment: &u32| satisfies(*assignment, clause);
            assert!(models.iter().all(holds), "case {case}: {clause:?}");
        }
        if !models.is_empty() {
            assert!(followed.verdict.is_err(), "case {case}");
            satisfied += 1;
            closed += followed.closed.len();
        }
    }
    show(&format!(
        "{satisfied} satisfied clause sets, {closed} steps that follow\n"
    ));
    assert!(satisfied > 500 && closed > 500);
}
