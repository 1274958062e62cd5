//! The making of valid routines of all shapes.

use crate::draft::{Draft, Header, MAX_ACCESSES, MAX_DEPTH, MAX_IFS, TOP};
use crate::rng::Rng;

/// The commands d, s, t on variables of one width; the last two divide.
pub const OPERATIONS: [u8; 5] = [0x03, 0x04, 0x05, 0x0E, 0x0F];

/// What a routine is to be made of.
pub struct Plan {
    pub header: Header,
    pub ifs: usize,
    pub accesses: usize,
    /// Commands that are neither ifs nor accesses.
    pub plain: usize,
    /// Ifs are put inside one another first, down to the greatest depth.
    pub deep: bool,
    /// The percentage of accesses whose index is first set to one inside, so
    /// that runs get past them.
    pub steady: usize,
    /// One access stands where a run is likely to come, with an index that is
    /// likely to be outside; all others are steady.
    pub stray: bool,
    /// The routine is filled up to the greatest length.
    pub full: bool,
}

impl Plan {
    pub fn draw(rng: &mut Rng) -> Self {
        let header = draw_header(rng);
        let accesses = match header.sizes.len() {
            0 => 0,
            _ => draw_count(rng, MAX_ACCESSES),
        };
        let stray = accesses > 0 && rng.chance(25);
        Plan {
            header,
            ifs: draw_count(rng, MAX_IFS),
            accesses,
            plain: rng.pick(&[0, 1, 2, 4, 8, 16, 40]),
            deep: rng.chance(40),
            steady: match stray {
                true => 100,
                false => rng.pick(&[0, 50, 90, 97, 100]),
            },
            stray,
            full: rng.chance(3),
        }
    }

    pub fn build(&self, rng: &mut Rng) -> Draft {
        let mut draft = Draft::new(self.header.clone());
        self.put_ifs(rng, &mut draft);
        self.put_accesses(rng, &mut draft);
        for _ in 0..self.plain {
            let commands = plain(rng, &draft.header);
            put_anywhere(rng, &mut draft, commands);
        }
        if self.full {
            fill_up(rng, &mut draft);
        }
        draft
    }

    fn put_ifs(&self, rng: &mut Rng, draft: &mut Draft) {
        let chain = if self.deep {
            self.ifs.min(MAX_DEPTH)
        } else {
            0
        };
        let mut list = TOP;
        for _ in 0..chain {
            let arm = rng.below(2);
            let head = match rng.chance(if self.stray { 95 } else { 70 }) {
                true => condition_towards(rng, &draft.header, arm),
                false => condition(rng, &draft.header),
            };
            list = draft.insert_if(rng, list, head)[arm];
            draft.extend_spine(list);
        }
        for _ in chain..self.ifs {
            let list = draft.list_at(rng, 0..=MAX_DEPTH - 1).unwrap_or(TOP);
            let head = condition(rng, &draft.header);
            draft.insert_if(rng, list, head);
        }
    }

    fn put_accesses(&self, rng: &mut Rng, draft: &mut Draft) {
        let stray = usize::from(self.stray);
        if self.stray {
            let commands = access(rng, &draft.header, Index::Any);
            let list = draft.spine_list(rng);
            draft.insert(rng, list, commands);
        }
        for _ in stray..self.accesses {
            let index = match (rng.chance(self.steady), rng.chance(40)) {
                (true, _) => Index::Inside,
                (false, true) => Index::Any,
                (false, false) => Index::AsItIs,
            };
            let commands = access(rng, &draft.header, index);
            put_anywhere(rng, draft, commands);
        }
    }
}

fn put_anywhere(rng: &mut Rng, draft: &mut Draft, commands: Vec<u8>) {
    let list = draft.any_list(rng);
    draft.insert(rng, list, commands);
}

/// A count up to the most allowed, often none, few or the most.
fn draw_count(rng: &mut Rng, most: usize) -> usize {
    match rng.below(10) {
        0 | 1 => 0,
        2..=4 => rng.within(1, 4),
        5 => most,
        6 => most - 1,
        _ => rng.below(most + 1),
    }
}

fn draw_header(rng: &mut Rng) -> Header {
    let variables = match rng.below(8) {
        0 => 1,
        1 => 32,
        2..=4 => rng.within(2, 6),
        _ => rng.within(1, 32),
    };
    let parameters = match rng.below(4) {
        0 => 0,
        1 => variables,
        _ => rng.below(variables + 1),
    };
    let arrays = match rng.below(8) {
        0 => 0,
        1 => 16,
        2..=5 => rng.within(1, 3),
        _ => rng.below(17),
    };
    Header {
        widths: draw_widths(rng, variables),
        parameters: parameters as u8,
        sizes: (0..arrays).map(|_| draw_size(rng)).collect(),
    }
}

/// Widths from a few chosen ones, so that many variables go together.
fn draw_widths(rng: &mut Rng, variables: usize) -> Vec<u8> {
    let chosen: Vec<u8> = (0..rng.within(1, 4))
        .map(|_| match rng.below(6) {
            0 => 1,
            1 => 32,
            2 => rng.pick(&[2, 7, 8, 9, 12, 13, 14, 16, 31]),
            _ => rng.within(1, 32) as u8,
        })
        .collect();
    (0..variables).map(|_| rng.pick(&chosen)).collect()
}

fn draw_size(rng: &mut Rng) -> u16 {
    match rng.below(6) {
        0 => 1,
        1 => 4096,
        2 => 1 << rng.below(13),
        3 => (1 << rng.within(1, 12)) - 1,
        4 => rng.within(1, 16) as u16,
        _ => rng.within(1, 4096) as u16,
    }
}

/// A value of this width, often one where something changes: the ends of the
/// signed and the unsigned range, and the sizes with their neighbours.
pub fn draw_value(rng: &mut Rng, width: u8, sizes: &[u16]) -> u32 {
    let most = u32::MAX >> (32 - width);
    let half = 1_u32 << (width - 1);
    let value = match rng.below(12) {
        0 => 0,
        1 => 1,
        2 => half - 1,
        3 => half,
        4 => most,
        5 | 6 if !sizes.is_empty() => {
            (u32::from(rng.pick(sizes)) + 1).wrapping_sub(rng.below(3) as u32)
        }
        7 => most - rng.below(16) as u32 % half,
        8 | 9 => rng.below(16) as u32,
        _ => rng.word() as u32,
    };
    value & most
}

/// A command that is neither an if nor an access.
pub fn plain(rng: &mut Rng, header: &Header) -> Vec<u8> {
    let d = header.any_variable(rng);
    match rng.below(10) {
        0 => set(rng, header, d),
        1 => vec![0x02, d, equal(rng, header, d)],
        2..=6 => {
            let (s, t) = (equal(rng, header, d), equal(rng, header, d));
            vec![rng.pick(&OPERATIONS), d, s, t]
        }
        7 => match header.variable_where(rng, d, |width, d| width > d) {
            Some(s) => vec![0x06, d, s],
            None => set(rng, header, d),
        },
        code => match header.variable_where(rng, d, |width, d| width < d) {
            Some(s) => vec![code as u8 - 1, d, s],
            None => set(rng, header, d),
        },
    }
}

fn set(rng: &mut Rng, header: &Header, d: u8) -> Vec<u8> {
    let value = draw_value(rng, header.widths[usize::from(d)], &header.sizes);
    set_to(d, value)
}

pub fn set_to(d: u8, value: u32) -> Vec<u8> {
    [&[0x01, d], value.to_le_bytes().as_slice()].concat()
}

/// A variable as wide as this one; it may be this one.
pub fn equal(rng: &mut Rng, header: &Header, variable: u8) -> u8 {
    header
        .variable_where(rng, variable, |width, own| width == own)
        .unwrap_or(variable)
}

/// What the index variable of an access is set to right before it.
#[derive(Clone, Copy)]
pub enum Index {
    Inside,
    Any,
    AsItIs,
}

/// A read or write of some array.
pub fn access(rng: &mut Rng, header: &Header, index: Index) -> Vec<u8> {
    let array = rng.below(header.sizes.len());
    let size = header.sizes[array];
    let (i, other) = (header.any_variable(rng), header.any_variable(rng));
    let width = header.widths[usize::from(i)];
    let mut commands = match index {
        Index::Inside => set_to(i, draw_index_inside(rng, width, size)),
        Index::Any => set_to(i, draw_value(rng, width, &[size])),
        Index::AsItIs => Vec::new(),
    };
    if rng.chance(50) {
        commands.extend_from_slice(&[0x09, other, array as u8, i]);
    } else {
        commands.extend_from_slice(&[0x0A, array as u8, i, other]);
    }
    commands
}

/// An index below the size that is not negative in this width.
fn draw_index_inside(rng: &mut Rng, width: u8, size: u16) -> u32 {
    let half = 1_u32 << (width - 1);
    let count = half.min(u32::from(size));
    match rng.below(3) {
        0 => count - 1,
        _ => rng.below(count as usize) as u32,
    }
}

pub fn condition(rng: &mut Rng, header: &Header) -> [u8; 4] {
    let s = header.any_variable(rng);
    [0x0B, rng.below(10) as u8, s, equal(rng, header, s)]
}

/// A condition that leads into this arm: a variable stands in the relations
/// =, ≤ and ≥ to itself and not in the others.
fn condition_towards(rng: &mut Rng, header: &Header, arm: usize) -> [u8; 4] {
    let s = header.any_variable(rng);
    let relation = match arm {
        0 => rng.pick(&[0, 3, 5, 7, 9]),
        _ => rng.pick(&[1, 2, 4, 6, 8]),
    };
    [0x0B, relation, s, s]
}

/// Fills a draft up to exactly the greatest length. Commands have 3, 4 or 6
/// bytes here, and from 6 on every number is a sum of 3s and 4s.
fn fill_up(rng: &mut Rng, draft: &mut Draft) {
    while draft.room() >= 12 {
        let commands = plain(rng, &draft.header);
        put_anywhere(rng, draft, commands);
    }
    while draft.room() > 0 {
        let d = draft.header.any_variable(rng);
        let commands = if draft.room() % 3 == 0 {
            vec![0x02, d, d]
        } else {
            vec![0x03, d, d, d]
        };
        put_anywhere(rng, draft, commands);
    }
}

#[cfg(test)]
mod tests {
    use super::*;

    #[test]
    fn plans_give_accepted_routines_of_their_counts() {
        for case in 0..2000 {
            let rng = &mut Rng::for_case(0, case);
            let plan = Plan::draw(rng);
            let bytes = plan.build(rng).encode();
            let counts = oracle::check(&bytes).expect("a valid routine");
            assert_eq!((counts.ifs, counts.accesses), (plan.ifs, plan.accesses));
            assert!(!plan.full || bytes.len() == crate::draft::MAX_BYTES);
        }
    }

    #[test]
    fn values_fit_their_width() {
        let rng = &mut Rng::for_case(0, 0);
        for width in 1..=32 {
            for _ in 0..200 {
                let value = draw_value(rng, width, &[1, 100, 4096]);
                assert!(u64::from(value) < 1 << width);
            }
        }
    }
}
