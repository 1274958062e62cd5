//! The commands that look at a routine: its counts, its runs, its clauses and
//! their space.

use crate::done::Done;
use pelletperiod::claim::side_name;
use pelletperiod::inputs::by_kind;
use pelletperiod::judge::index;
use pelletperiod::propose::translate;
use pelletperiod::refused::accepted;
use pelletperiod::{dimacs, Claim, Counts, Refused, Room, Space};

pub fn check(routine: &[u8]) -> Result<String, Refused> {
    let Counts {
        variables,
        parameters,
        arrays,
        ifs,
        accesses,
        reads,
        first_command,
    } = Counts::of(routine)?;
    Ok(format!(
        "variables {variables} parameters {parameters} arrays {arrays} \
         ifs {ifs} accesses {accesses} reads {reads} first command {first_command}"
    ))
}

pub fn run(routine: &[u8], inputs: &[u32]) -> Result<String, Refused> {
    let counts = Counts::of(routine)?;
    let mut values = vec![0; counts.variables];
    let mut trail = vec![0; counts.ifs];
    let mut answer = [0; pellet::ANSWER_LEN];
    let code = pellet::run(routine, inputs, &mut values, &mut trail, &mut answer);
    accepted(code, &answer)?;
    let (kinds, outcome) = (by_kind(routine, inputs)?, outcome(&answer));
    Ok(format!(
        "{kinds}\n{outcome}\nvalues {values:?}\ntrail {trail:?}"
    ))
}

fn outcome(answer: &[u64; pellet::ANSWER_LEN]) -> String {
    let [stopped, access, side, negative, magnitude, ..] = *answer;
    if stopped == 0 {
        return "ended".to_string();
    }
    let (side, index) = (side_name(side), index(negative, magnitude));
    format!("stopped access {access} side {side} index {index}")
}

pub fn space(claim: &Claim) -> Result<String, Refused> {
    let space = claim.space()?;
    let judging = match Room::least(&claim.routine, &space)? {
        Some(room) => format!("judging takes at least {} bytes", room.bytes()),
        None => "too large to judge".to_string(),
    };
    let Space {
        clauses,
        words,
        variables,
    } = space;
    Ok(format!(
        "clauses {clauses} words {words} variables {variables} {judging}"
    ))
}

pub fn print_clauses(claim: &Claim) -> Result<Done, String> {
    let (translation, inputs) = match translate(claim) {
        Ok(translated) => translated,
        Err(refused) => return Ok(Done::new(Err(refused))),
    };
    let mut printed = Vec::new();
    let written = dimacs::write(claim, &translation, &inputs, &mut printed);
    written.map_err(|e| e.to_string())?;
    Ok(Done {
        printed,
        is_refused: false,
    })
}
