//! Blind damage to the bytes of a routine.

use crate::rng::Rng;

/// The bytes of a routine and what is to lie right behind them in memory.
#[derive(Clone)]
pub struct Text {
    pub bytes: Vec<u8>,
    pub beyond: Vec<u8>,
}

impl Text {
    pub fn new(bytes: Vec<u8>) -> Self {
        Text {
            bytes,
            beyond: Vec::new(),
        }
    }

    /// Cuts the bytes to this length; what is cut off stays behind them.
    pub fn truncate(&mut self, len: usize) {
        let mut beyond = self.bytes.split_off(len);
        beyond.append(&mut self.beyond);
        self.beyond = beyond;
    }

    fn any_offset(&self, rng: &mut Rng) -> Option<usize> {
        match self.bytes.len() {
            0 => None,
            len => Some(rng.below(len)),
        }
    }
}

/// Damages a routine in one to three ways.
pub fn damage(rng: &mut Rng, text: &mut Text) {
    for _ in 0..rng.pick(&[1, 1, 1, 2, 3]) {
        damage_once(rng, text);
    }
}

pub fn damage_once(rng: &mut Rng, text: &mut Text) {
    let at = match text.any_offset(rng) {
        Some(at) => at,
        None => return,
    };
    let other = rng.below(text.bytes.len());
    match rng.below(10) {
        0 | 1 => text.bytes[at] ^= 1 << rng.below(8),
        2 => text.bytes[at] = rng.byte(),
        // A byte that is some command or its neighbour.
        3 | 4 => text.bytes[at] = rng.below(17) as u8,
        5 => text.bytes.insert(at, rng.below(17) as u8),
        6 => drop(text.bytes.remove(at)),
        7 => text.truncate(at),
        8 => append(rng, text),
        _ => text.bytes.swap(at, other),
    }
}

/// Puts one or more bytes behind the routine, sometimes another end.
pub fn append(rng: &mut Rng, text: &mut Text) {
    for _ in 0..rng.pick(&[1, 1, 2, 5]) {
        let byte = if rng.chance(40) { 0x00 } else { rng.byte() };
        text.bytes.push(byte);
    }
}
