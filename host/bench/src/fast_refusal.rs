//! What is turned down, and how a caller of C would be told.

/// A refusal: its number and its place.
#[derive(Clone, Copy, Debug, PartialEq, Eq)]
pub struct Refusal(pub u8, pub usize);

impl Refusal {
    /// Puts the place into `answer` and hands the number back.
    pub fn give(self, answer: &mut [u64]) -> u8 {
        answer[0] = self.1 as u64;
        self.0
    }
}
