//! The numbers under which a routine, a run, a translation, a proof or a report
//! is turned down.

/// A refusal: its number and its place. What the place says goes with the
/// number: an offset, a length, an input number or a buffer number.
#[derive(Clone, Copy, Debug, PartialEq, Eq)]
pub struct Refusal {
    pub number: u8,
    pub place: usize,
}

impl Refusal {
    pub(crate) fn new(number: u8, place: usize) -> Self {
        Refusal { number, place }
    }
}

/// Routine empty or over 4,096 bytes; the place is 0.
pub const LENGTH: u8 = 1;
/// Header field wrong or not whole; the place is the field's offset.
pub const HEADER: u8 = 2;
/// Command unknown, cut short or missing; the place is its offset.
pub const COMMAND: u8 = 3;
/// Operand or constant out of range; the place is the command's offset.
pub const RANGE: u8 = 4;
/// Widths that do not go together; the place is the command's offset.
pub const WIDTHS: u8 = 5;
/// Else, end of if or end out of place, or depth 9; the command's offset.
pub const NESTING: u8 = 6;
/// The 33rd if or the 65th access; the command's offset.
pub const TOO_MANY: u8 = 7;
/// Bytes after the end; the place is the first of them.
pub const TRAILING: u8 = 8;
/// Wrong number of inputs; the place is the number given.
pub const INPUT_COUNT: u8 = 9;
/// An input too great for its variable; the place is the input's number.
pub const INPUT_RANGE: u8 = 10;
/// Wrong number of decisions, and the place is the number given; or, of a
/// report, its lead cut short or the report too long, and the place is the
/// report's length.
pub const LEAD_LENGTH: u8 = 11;
/// Access, side or decision out of range; the place is 0 for the access, 1 for
/// the side, 2 and the if's number for a decision.
pub const LEAD_RANGE: u8 = 12;
/// The witness takes another arm than the decided one; the if's number.
pub const OTHER_WAY: u8 = 13;
/// The witness ends or stops without coming to the named access; the place is
/// that access.
pub const NOT_COME_TO: u8 = 14;
/// The witness's index at the named access is not on the side; the place is
/// that access.
pub const NOT_ON_SIDE: u8 = 15;
/// A buffer too small; the place is the buffer's number.
pub const BUFFER: u8 = 16;
/// Proof command unknown, cut short or missing; the place is its offset.
pub const PROOF_COMMAND: u8 = 17;
/// Literal not of a variable, twice in its step, with its opposite, or after a
/// hint; the command's offset.
pub const PROOF_LITERAL: u8 = 18;
/// Hint of a clause that is not there yet; the command's offset.
pub const UNKNOWN_CLAUSE: u8 = 19;
/// Hint that neither decides a variable nor conflicts; the command's offset.
pub const USELESS_HINT: u8 = 20;
/// Close without conflict; the command's offset.
pub const NO_CONFLICT: u8 = 21;
/// Hint after the conflict; the command's offset.
pub const AFTER_CONFLICT: u8 = 22;
/// End without the empty clause, or a command after it; the command's offset.
pub const EMPTY_CLAUSE: u8 = 23;
/// Bytes after the end of a proof; the place is the first of them.
pub const AFTER_PROOF: u8 = 24;
/// No room for a step's clause; the command's offset.
pub const NO_ROOM: u8 = 25;

/// The number of the words buffer in a refusal 16.
pub const WORDS_BUFFER: usize = 0;
/// The number of the starts buffer in a refusal 16.
pub const STARTS_BUFFER: usize = 1;
/// The number of the marks buffer in a refusal 16.
pub const MARKS_BUFFER: usize = 2;
/// The number of the values buffer in a refusal 16.
pub const VALUES_BUFFER: usize = 3;
/// The number of the trail buffer in a refusal 16.
pub const TRAIL_BUFFER: usize = 4;
