//! Commands of a routine as bytes, by their names.

pub enum Relation {
    LessUnsigned = 2,
    AtLeastUnsigned = 5,
    LessSigned = 6,
    AtLeastSigned = 9,
}

/// A routine of these widths, of which the first so many variables are
/// parameters, with arrays of these sizes.
pub fn routine(widths: &[u8], parameters: u8, sizes: &[u16], commands: &[Vec<u8>]) -> Vec<u8> {
    let mut bytes = vec![1, widths.len() as u8];
    bytes.extend(widths);
    bytes.extend([parameters, sizes.len() as u8]);
    bytes.extend(sizes.iter().flat_map(|size| size.to_le_bytes()));
    bytes.extend(commands.concat());
    bytes.push(0x00);
    bytes
}

pub fn set(d: u8, c: u32) -> Vec<u8> {
    [&[0x01, d][..], &c.to_le_bytes()].concat()
}

pub fn add(d: u8, s: u8, t: u8) -> Vec<u8> {
    vec![0x03, d, s, t]
}

pub fn subtract(d: u8, s: u8, t: u8) -> Vec<u8> {
    vec![0x04, d, s, t]
}

pub fn multiply(d: u8, s: u8, t: u8) -> Vec<u8> {
    vec![0x05, d, s, t]
}

pub fn quotient(d: u8, s: u8, t: u8) -> Vec<u8> {
    vec![0x0E, d, s, t]
}

pub fn remainder(d: u8, s: u8, t: u8) -> Vec<u8> {
    vec![0x0F, d, s, t]
}

pub fn cut(d: u8, s: u8) -> Vec<u8> {
    vec![0x06, d, s]
}

pub fn zero_extend(d: u8, s: u8) -> Vec<u8> {
    vec![0x07, d, s]
}

pub fn write(array: u8, i: u8, s: u8) -> Vec<u8> {
    vec![0x0A, array, i, s]
}

pub fn branch(relation: Relation, s: u8, t: u8, first: &[Vec<u8>], other: &[Vec<u8>]) -> Vec<u8> {
    let head = vec![0x0B, relation as u8, s, t];
    [head, first.concat(), vec![0x0C], other.concat(), vec![0x0D]].concat()
}
