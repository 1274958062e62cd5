//! What must hold of a claim once both solvers have decided it.

use crate::draw::Case;
use crate::forge::forge;
use crate::z3::{ask, Verdict};
use differential::rng::Rng;
use oracle::{Event, Room, Routine};
use pelletperiod::propose::translate;
use pelletperiod::solver::OUT_OF_TIME;
use pelletperiod::{judge, propose, Claim, Proposal, Solver};

/// How many reports are forged on a claim that is not so.
const FORGED: usize = 4;

/// What a case came to.
#[derive(Clone, Copy, Debug, PartialEq, Eq)]
pub enum Came {
    /// A report of so many bytes.
    Accepted(usize),
    NotSo,
    NoRun,
    /// One of the solvers took too long.
    Open,
}

impl Came {
    pub fn kind(self) -> &'static str {
        match self {
            Came::Accepted(_) => "accepted",
            Came::NotSo => "not so",
            Came::NoRun => "no run",
            Came::Open => "took too long",
        }
    }

    pub fn bytes(self) -> usize {
        match self {
            Came::Accepted(bytes) => bytes,
            _ => 0,
        }
    }
}

/// Decides a claim twice, and compares; the message says what is at odds. Says
/// too what z3 made of it, which may be nothing.
pub fn check(case: &Case, solver: &Solver, rng: &mut Rng) -> Result<(Came, Verdict), String> {
    let claim = &case.claim;
    let routine = oracle::parse(&claim.routine).map_err(|e| format!("{e:?}"))?;
    let milliseconds = solver.limit.map_or(u32::MAX, |l| l.as_millis() as u32);
    let verdict = ask(claim, &routine, milliseconds)?;
    let proposal = match propose(claim, solver) {
        Err(message) if message.ends_with(OUT_OF_TIME) => return Ok((Came::Open, verdict)),
        Err(message) if message.contains("claim less at once") => return Ok((Came::Open, verdict)),
        proposal => proposal?,
    };
    let (came, expected) = match &proposal {
        Proposal::Good { report, .. } => {
            accepted_by_both(claim, report)?;
            (Came::Accepted(report.len()), Verdict::Holds)
        }
        Proposal::NotSo(inputs) => {
            is_counter_run(claim, &routine, inputs)?;
            nothing_is_accepted(case, rng)?;
            (Came::NotSo, Verdict::NotSo)
        }
        Proposal::NoRun => (Came::NoRun, Verdict::NoRun),
        Proposal::Refused(refused) => return Err(refused.to_string()),
    };
    match verdict == expected || verdict == Verdict::Unknown {
        true => Ok((came, verdict)),
        false => Err(format!("z3 says {verdict:?}, the proposal is {came:?}")),
    }
}

fn accepted_by_both(claim: &Claim, report: &[u8]) -> Result<(), String> {
    let most = oracle::MAX_ENTRIES;
    let room = Room {
        words: most,
        starts: most,
        marks: most,
        values: 32,
        trail: 32,
    };
    let by_oracle = oracle::judge(&claim.routine, report, room);
    by_oracle.map_err(|refusal| format!("the oracle's judge: {refusal:?}"))?;
    let by_library = judge(&claim.routine, report);
    by_library.map_err(|refused| format!("the library's judge: {refused}"))?;
    Ok(())
}

/// The library runs the list; the run comes to the access by the decisions, and
/// does not stop there on the side.
fn is_counter_run(claim: &Claim, routine: &Routine, inputs: &[u32]) -> Result<(), String> {
    let (mut values, mut trail) = ([0; 32], [0; 32]);
    let mut answer = [0; pellet::ANSWER_LEN];
    let code = pellet::run(&claim.routine, inputs, &mut values, &mut trail, &mut answer);
    if code != 0 {
        return Err(format!("{inputs:?} is no run: {code}"));
    }
    let (access, side) = (u64::from(claim.access), u64::from(claim.side));
    if answer[..3] == [1, access, side] {
        return Err(format!("the run of {inputs:?} is on the side"));
    }
    let run = oracle::run(&claim.routine, inputs, 32, 32).map_err(|e| format!("{e:?}"))?;
    let named = Event::Access {
        number: usize::from(claim.access),
    };
    let before = run.events.iter().take_while(|&&event| event != named);
    let keeps = |event: &Event| match event {
        Event::If { number, arm } => claim.decisions[*number] + arm.byte() != 1,
        Event::Access { .. } | Event::Division { .. } => true,
    };
    let goes = run.events.contains(&named) && before.clone().all(keeps);
    let ifs = routine.ifs;
    let same = run
        .trail
        .iter()
        .map(|arm| arm.byte())
        .eq(trail[..ifs].iter().copied());
    match goes && same {
        true => Ok(()),
        false => Err(format!("the run of {inputs:?} does not go there")),
    }
}

/// Forged reports on a claim that is not so, all to be refused.
fn nothing_is_accepted(case: &Case, rng: &mut Rng) -> Result<(), String> {
    let witness = match &case.witness {
        Some(witness) => witness,
        None => return Ok(()),
    };
    let claim = &case.claim;
    let (translation, inputs) = translate(claim).map_err(|refused| refused.to_string())?;
    for _ in 0..FORGED {
        let mut instead = |clauses: u32| rng.below(clauses as usize) as u32;
        let report = forge(claim, &translation, &inputs, witness, &mut instead)?;
        if let Ok(line) = judge(&claim.routine, &report) {
            return Err(format!("a forged report is {line}"));
        }
    }
    Ok(())
}
