//! What a command of the program came to.

use pelletperiod::Refused;

/// What a command came to: what it prints, and whether something was refused.
pub struct Done {
    pub printed: Vec<u8>,
    pub is_refused: bool,
}

impl Done {
    /// One or more lines, without the last line's end.
    pub fn text(text: &str, is_refused: bool) -> Self {
        Done {
            printed: format!("{text}\n").into_bytes(),
            is_refused,
        }
    }

    pub fn new(result: Result<String, Refused>) -> Self {
        match result {
            Ok(text) => Done::text(&text, false),
            Err(refused) => Done::text(&refused.to_string(), true),
        }
    }
}
