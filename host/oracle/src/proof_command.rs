//! The commands of a proof, as bytes.

pub(crate) enum Command {
    End,
    Literal(u32),
    Hint(u32),
    Close,
}

/// The command at this offset and the offset after it; none where it is
/// unknown, cut short or missing.
pub(crate) fn read(report: &[u8], at: usize) -> Option<(Command, usize)> {
    let argument = || {
        let bytes = report.get(at + 1..at + 5)?;
        Some(u32::from_le_bytes(bytes.try_into().ok()?))
    };
    match report.get(at)? {
        0 => Some((Command::End, at + 1)),
        1 => Some((Command::Literal(argument()?), at + 5)),
        2 => Some((Command::Hint(argument()?), at + 5)),
        3 => Some((Command::Close, at + 1)),
        _ => None,
    }
}
