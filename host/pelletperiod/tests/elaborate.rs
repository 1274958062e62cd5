//! Hints found for proofs that have lost theirs, checked by the oracle.

use differential::proof_draft::{Command, Refutation};
use differential::refutations::draw_refutation;
use differential::rng::Rng;
use oracle::{check_proof, Totals};
use pelletperiod::elaborate::{elaborate, RAT};
use pelletperiod::follow::follow;
use pelletperiod::progress::Count;
use pelletperiod::proof::{encode, trim, Step};
use pelletperiod::solver_proof::{Drat, Lrat};

const CASES: u64 = 3000;

/// The arguments of the commands of each step that are picked.
fn of_steps(refutation: &Refutation, pick: fn(&Command) -> Option<u32>) -> Vec<Vec<u32>> {
    let closed = refutation.commands.split(|c| *c == Command::Close);
    let mut steps: Vec<Vec<u32>> = closed
        .map(|step| step.iter().filter_map(pick).collect())
        .collect();
    steps.pop();
    steps
}

fn literal(command: &Command) -> Option<u32> {
    match command {
        Command::Literal(literal) => Some(*literal),
        _ => None,
    }
}

fn hint(command: &Command) -> Option<u32> {
    match command {
        Command::Hint(number) => Some(*number),
        _ => None,
    }
}

fn checked(refutation: &Refutation, steps: &[Step]) -> Totals {
    let Refutation {
        clauses, variables, ..
    } = refutation;
    let most = usize::pow(2, 24);
    let proof = encode(steps);
    let checked = check_proof(&proof, 0, clauses, *variables, most, most);
    checked.expect("a proof with hints")
}

/// The proof without its hints. Clauses of the beginning that are given twice
/// are taken out once.
fn as_drat(refutation: &Refutation) -> Vec<Drat> {
    let clauses = &refutation.clauses;
    let is_again = |k: &usize| clauses[..*k].contains(&clauses[*k]);
    let doubled = (0..clauses.len()).filter(is_again);
    let deletions = doubled.map(|k| Drat::Delete(clauses[k].clone()));
    let additions = of_steps(refutation, literal).into_iter().map(Drat::Add);
    deletions.chain(additions).collect()
}

#[test]
fn finds_hints() {
    for case in 0..CASES {
        let refutation = draw_refutation(&mut Rng::for_case(41, case));
        let given = || refutation.clauses.iter().map(Vec::as_slice);
        let lines = as_drat(&refutation);
        let steps = elaborate(given(), refutation.variables, &lines, &Count::default());
        let steps = steps.expect("every step follows");
        let whole = checked(&refutation, &steps);
        let trimmed = trim(refutation.clauses.len(), steps);
        let short = checked(&refutation, &trimmed);
        assert!(short.steps <= whole.steps && short.hints <= whole.hints);
    }
}

#[test]
fn takes_hints_over() {
    for case in 0..CASES {
        let refutation = draw_refutation(&mut Rng::for_case(42, case));
        let given = || refutation.clauses.iter().map(Vec::as_slice);
        let lines = as_lrat(&refutation);
        let steps = follow(given(), refutation.variables, &lines, &Count::default());
        let steps = steps.expect("every hint is good");
        checked(&refutation, &trim(refutation.clauses.len(), steps));
    }
}

/// The proof as LRAT, whose numbers begin with 1 and may leave some out.
fn as_lrat(refutation: &Refutation) -> Vec<Lrat> {
    let given = refutation.clauses.len() as u64;
    let number = |k: u64| if k < given { k + 1 } else { 3 * k + 7 };
    let literals = of_steps(refutation, literal);
    let hints = of_steps(refutation, hint);
    (literals.into_iter().zip(hints).enumerate())
        .map(|(k, (literals, hints))| Lrat {
            number: number(given + k as u64),
            literals,
            hints: hints.into_iter().map(|hint| number(hint.into())).collect(),
            line: k + 1,
        })
        .collect()
}

/// {1, 2} and {-1, 2} give {2}, and nothing gives {1}.
#[test]
fn steps_that_do_not_follow_are_named() {
    let given: [&[u32]; 3] = [&[2, 4], &[3, 4], &[5, 2, 3]];
    let lines = [Drat::Add(vec![4]), Drat::Add(vec![2])];
    let found = elaborate(given.into_iter(), 2, &lines, &Count::default());
    assert_eq!(found, Err(format!("proof step 2: {RAT}")));
    let found = elaborate(given.into_iter(), 2, &lines[..1], &Count::default());
    assert!(found.expect_err("no empty clause").contains("ends before"));
}

/// A clause that was taken out finds no hints any more, but stays where it
/// settled something.
#[test]
fn clauses_are_taken_out() {
    let given: [&[u32]; 4] = [&[2, 4], &[3, 4], &[5, 6], &[5, 7]];
    let gone = [Drat::Delete(vec![4, 2]), Drat::Add(vec![4])];
    let found = elaborate(given.into_iter(), 3, &gone, &Count::default());
    assert_eq!(found, Err(format!("proof step 2: {RAT}")));
    let settled = [
        Drat::Add(vec![4]),
        Drat::Delete(vec![4]),
        Drat::Delete(vec![5, 6]),
        Drat::Add(vec![]),
    ];
    let found = elaborate(given.into_iter(), 3, &settled, &Count::default());
    assert_eq!(
        found.expect("it follows").last().expect("a step").literals,
        []
    );
}
