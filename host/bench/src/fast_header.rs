//! The header of a routine.

use crate::fast_refusal::Refusal;

const LENGTH: u8 = 1;
const WRONG: u8 = 2;

/// What the header says, but for the number of parameters, by which nothing
/// changes. The widths have an entry for every byte, 0 where there is no such
/// variable, so that one look-up is the test too.
pub struct Header {
    pub variables: usize,
    pub first_command: usize,
    pub widths: [u8; 256],
    sizes: [u16; 16],
}

impl Header {
    #[inline]
    pub fn width(&self, variable: u8) -> u8 {
        self.widths[variable as usize]
    }

    /// 0 where there is no such array.
    #[inline]
    pub fn size(&self, array: u8) -> u16 {
        self.sizes.get(array as usize).copied().unwrap_or(0)
    }
}

/// 1 and 2.
#[inline]
pub fn read(bytes: &[u8]) -> Result<Header, Refusal> {
    if bytes.is_empty() || bytes.len() > 4096 {
        return Err(Refusal(LENGTH, 0));
    }
    field(bytes, 0, 1, 1)?;
    let variables = field(bytes, 1, 1, 32)? as usize;
    let mut widths = [0; 256];
    for (k, width) in widths[..variables].iter_mut().enumerate() {
        *width = field(bytes, 2 + k, 1, 32)?;
    }
    field(bytes, 2 + variables, 0, variables as u8)?;
    let arrays = field(bytes, 3 + variables, 0, 16)? as usize;
    let mut at = 4 + variables;
    let mut sizes = [0; 16];
    for entry in &mut sizes[..arrays] {
        *entry = size(bytes, at)?;
        at += 2;
    }
    Ok(Header {
        variables,
        first_command: at,
        widths,
        sizes,
    })
}

#[inline]
fn field(bytes: &[u8], at: usize, least: u8, most: u8) -> Result<u8, Refusal> {
    match bytes.get(at) {
        Some(&byte) if least <= byte && byte <= most => Ok(byte),
        _ => Err(Refusal(WRONG, at)),
    }
}

#[inline]
fn size(bytes: &[u8], at: usize) -> Result<u16, Refusal> {
    match bytes.get(at..at + 2) {
        Some(&[low, high]) => match u16::from_le_bytes([low, high]) {
            size @ 1..=4096 => Ok(size),
            _ => Err(Refusal(WRONG, at)),
        },
        _ => Err(Refusal(WRONG, at)),
    }
}
