//! The lead of a report, the refusals 11 and 12, and when two reports are
//! alike.

use crate::refusal::{Refusal, LEAD_LENGTH};
use crate::routine::{parse, Routine};
use crate::translation::Named;

/// The most bytes that a report has.
pub const MAX_REPORT: usize = 16_777_216;

/// The access, the side and the decisions, as they are and by their meaning,
/// and the witness.
pub(crate) struct Lead<'a> {
    pub access: u8,
    pub side: u8,
    pub decisions: &'a [u8],
    pub named: Named,
    pub witness: Vec<u32>,
    /// How many bytes the lead takes; the proof begins after them.
    pub len: usize,
}

/// How many bytes the lead of a report on this routine takes: access and side,
/// a byte for each if, four for each input.
pub fn lead_len(routine: &Routine) -> usize {
    2 + routine.ifs + 4 * routine.input_widths().len()
}

/// Reads the lead of a report: 11, then 12. The witness's inputs are not
/// looked at.
pub(crate) fn read_lead<'a>(routine: &Routine, report: &'a [u8]) -> Result<Lead<'a>, Refusal> {
    let len = lead_len(routine);
    if report.len() < len || report.len() > MAX_REPORT {
        return Err(Refusal::new(LEAD_LENGTH, report.len()));
    }
    let (decisions, witness) = report[2..len].split_at(routine.ifs);
    let (access, side) = (report[0], report[1]);
    let witness = witness.chunks_exact(4);
    Ok(Lead {
        access,
        side,
        decisions,
        named: Named::new(routine, access, side, decisions)?,
        witness: witness
            .map(|word| u32::from_le_bytes([word[0], word[1], word[2], word[3]]))
            .collect(),
        len,
    })
}

/// Whether two reports on one routine name the same access and side: 1 to 8,
/// then 11 and 12 of the first report, then those of the second.
pub fn alike(bytes: &[u8], first: &[u8], second: &[u8]) -> Result<bool, Refusal> {
    let routine = parse(bytes)?;
    let first = read_lead(&routine, first)?;
    let second = read_lead(&routine, second)?;
    Ok(first.access == second.access && first.side == second.side)
}
