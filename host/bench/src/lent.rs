//! Buffers as a caller lends them.

use oracle::Room;

#[derive(Clone, PartialEq, Eq)]
pub struct Buffers {
    pub words: Vec<u32>,
    pub starts: Vec<u32>,
    pub marks: Vec<u8>,
    pub values: Vec<u32>,
    pub trail: Vec<u8>,
}

impl Buffers {
    /// Filled, so that no round pays for the first touch of a page.
    pub fn with(room: Room) -> Self {
        Buffers {
            words: vec![7; room.words],
            starts: vec![7; room.starts],
            marks: vec![7; room.marks],
            values: vec![7; room.values],
            trail: vec![7; room.trail],
        }
    }

    pub fn fill(&mut self) {
        self.words.fill(7);
        self.starts.fill(7);
        self.marks.fill(7);
        self.values.fill(7);
        self.trail.fill(7);
    }
}
