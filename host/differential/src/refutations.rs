//! Clause sets that nothing satisfies, each with a proof.

use crate::narrow::{draw_followed, draw_narrow};
use crate::proof_draft::Refutation;
use crate::refute::{refute, Style};
use crate::rng::Rng;
use oracle::{translate, Clauses};

/// The most steps that the proof of a claim has. Over few variables no proof
/// becomes long.
const MAX_STEPS: usize = 300;

/// The least and the most literals of random clauses. The short ones often
/// conflict without a split, the long ones make long proofs.
const LENGTHS: &[(usize, usize)] = &[(1, 2), (1, 4), (2, 2), (2, 4), (3, 3), (3, 4), (4, 5)];

/// Draws clauses of some kind and a proof for them.
pub fn draw_refutation(rng: &mut Rng) -> Refutation {
    match rng.below(10) {
        0..=5 => random_clauses(rng),
        6 | 7 => pigeons(rng),
        _ => claim(rng).unwrap_or_else(|| random_clauses(rng)),
    }
}

/// Random clauses over few variables until no assignment is left.
fn random_clauses(rng: &mut Rng) -> Refutation {
    let used = rng.pick(&[1, 2, 3, 4, 5, 6, 6, 7, 7, 8]);
    let lens = rng.pick(LENGTHS);
    let mut left: Vec<u32> = (0..1 << used).collect();
    let mut clauses = Vec::new();
    while !left.is_empty() {
        let clause = random_clause(rng, used, lens, &left);
        left.retain(|&assignment| satisfies(assignment, &clause));
        clauses.push(clause);
    }
    for _ in 0..rng.below(4) {
        clauses.push(random_clause(rng, used, lens, &[0]));
    }
    shuffle(rng, &mut clauses);
    let variables = used + rng.pick(&[0, 0, 1, 5]);
    with_proof(rng, clauses, variables, usize::MAX / 2).expect("no assignment is left")
}

/// A clause of a few literals, often one that excludes some assignment of
/// those left, now and then with a literal doubled. The empty one is rare.
fn random_clause(
    rng: &mut Rng,
    used: u32,
    (least, most): (usize, usize),
    left: &[u32],
) -> Vec<u32> {
    let excluded = rng.pick(left);
    let aims = rng.chance(60);
    let len = match rng.below(500) {
        0 => 0,
        _ => rng.within(least, most),
    };
    let mut clause: Vec<u32> = (0..len)
        .map(|_| {
            let variable = rng.within(1, used as usize) as u32;
            let is_true = excluded >> (variable - 1) & 1;
            let opposite = if aims { is_true } else { rng.below(2) as u32 };
            2 * variable + opposite
        })
        .collect();
    if !clause.is_empty() && rng.chance(15) {
        clause.insert(rng.below(len + 1), rng.pick(&clause.clone()));
    }
    clause
}

/// Whether an assignment, of which bit v - 1 is the value of variable v, makes
/// a literal of the clause true.
pub fn satisfies(assignment: u32, clause: &[u32]) -> bool {
    let is_true = |literal: &u32| assignment >> (literal / 2 - 1) & 1 != literal % 2;
    clause.iter().any(is_true)
}

fn shuffle<T>(rng: &mut Rng, list: &mut [T]) {
    for k in 1..list.len() {
        list.swap(k, rng.below(k + 1));
    }
}

/// One pigeon more than there are holes, and no two in one hole.
fn pigeons(rng: &mut Rng) -> Refutation {
    let holes = rng.within(1, 3) as u32;
    let sits = |pigeon: u32, hole: u32| 2 * (1 + pigeon * holes + hole);
    let mut clauses = Vec::new();
    for pigeon in 0..=holes {
        clauses.push((0..holes).map(|hole| sits(pigeon, hole)).collect());
        for (other, hole) in (0..pigeon).flat_map(|p| (0..holes).map(move |h| (p, h))) {
            clauses.push(vec![sits(pigeon, hole) ^ 1, sits(other, hole) ^ 1]);
        }
    }
    shuffle(rng, &mut clauses);
    let variables = (holes + 1) * holes;
    with_proof(rng, clauses, variables, usize::MAX / 2).expect("no room for the last pigeon")
}

/// The translation of a claim about a narrow routine, if one of a few is true
/// and has a short proof.
fn claim(rng: &mut Rng) -> Option<Refutation> {
    (0..8).find_map(|_| {
        let (bytes, routine) = draw_narrow(rng);
        let decisions = draw_followed(rng, &bytes, &routine);
        let (access, side) = (rng.below(routine.accesses) as u8, rng.below(2) as u8);
        let mut clauses = Clauses::default();
        let translation =
            translate(&bytes, access, side, &decisions, &mut clauses).expect("a valid claim");
        if translation.variables > 60 {
            return None;
        }
        let variables = translation.variables as u32;
        let mut refutation = with_proof(rng, clauses.numbers(), variables, MAX_STEPS)?;
        refutation.lead = [&[access, side][..], &decisions].concat();
        for _ in 0..4 * routine.input_widths().len() {
            refutation.lead.push(rng.byte());
        }
        Some(refutation)
    })
}

fn with_proof(
    rng: &mut Rng,
    clauses: Vec<Vec<u32>>,
    variables: u32,
    max_steps: usize,
) -> Option<Refutation> {
    let style = Style::draw(rng);
    let commands = refute(rng, &clauses, variables, style, max_steps)?;
    let lead = (0..rng.pick(&[0, 2, 2, 7, 40]))
        .map(|_| rng.byte())
        .collect();
    Some(Refutation {
        clauses,
        variables,
        commands,
        lead,
    })
}
