//! Judging reports with as much room as they need.

use crate::claim::side_name;
use crate::refused::{accepted, Refused};
use crate::room::Room;

/// Judges a report in all the room that can matter to it. Hands back the line of
/// an accepted one.
pub fn judge(routine: &[u8], report: &[u8]) -> Result<String, Refused> {
    judge_in(&Room::of_report(routine, report), routine, report)
}

/// Judges a report in this room.
pub fn judge_in(room: &Room, routine: &[u8], report: &[u8]) -> Result<String, Refused> {
    let (mut words, mut starts) = (vec![0; room.words], vec![0; room.starts]);
    let mut marks = vec![0; room.marks];
    let (mut values, mut trail) = (vec![0; room.values], vec![0; room.trail]);
    let mut answer = [0; pellet::ANSWER_LEN];
    let code = pellet::judge(
        routine,
        report,
        &mut words,
        &mut starts,
        &mut marks,
        &mut values,
        &mut trail,
        &mut answer,
    );
    accepted(code, &answer)?;
    let [access, side, array, size, negative, magnitude, steps, hints, ..] = answer;
    let (side, index) = (side_name(side), index(negative, magnitude));
    Ok(format!(
        "accepted access {access} side {side} array {array} size {size} \
         index {index} steps {steps} hints {hints}"
    ))
}

/// An index in signed decimal.
pub fn index(negative: u64, magnitude: u64) -> String {
    let sign = if negative == 1 { "-" } else { "" };
    format!("{sign}{magnitude}")
}
