//! What the library turns down.

use std::fmt;

/// A refusal: the number and the place of document 01's table.
#[derive(Clone, Copy, Debug, PartialEq, Eq)]
pub struct Refused {
    pub number: u8,
    pub place: u64,
}

impl fmt::Display for Refused {
    fn fmt(&self, f: &mut fmt::Formatter) -> fmt::Result {
        write!(f, "refused {} place {}", self.number, self.place)
    }
}

/// What a call's return says, with the answer that it filled.
pub fn accepted(code: u8, answer: &[u64; pellet::ANSWER_LEN]) -> Result<(), Refused> {
    match code {
        0 => Ok(()),
        number => Err(Refused {
            number,
            place: answer[0],
        }),
    }
}
