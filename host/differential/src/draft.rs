//! A routine in the making: its header and a tree of command lists, into which
//! commands and ifs are put one by one. Nothing here keeps to the rules; that
//! is up to those who put things in.

use crate::rng::Rng;
use std::ops::RangeInclusive;

pub const MAX_BYTES: usize = 4096;
pub const MAX_DEPTH: usize = 8;
pub const MAX_IFS: usize = 32;
pub const MAX_ACCESSES: usize = 64;

/// The number of the list that is the routine's own.
pub const TOP: usize = 0;

#[derive(Clone)]
pub struct Header {
    pub widths: Vec<u8>,
    pub parameters: u8,
    pub sizes: Vec<u16>,
}

impl Header {
    /// The length in bytes, which is the offset of the first command.
    pub fn byte_len(&self) -> usize {
        4 + self.widths.len() + 2 * self.sizes.len()
    }

    fn encode(&self) -> Vec<u8> {
        let mut bytes = vec![1, self.widths.len() as u8];
        bytes.extend_from_slice(&self.widths);
        bytes.extend_from_slice(&[self.parameters, self.sizes.len() as u8]);
        bytes.extend(self.sizes.iter().flat_map(|size| size.to_le_bytes()));
        bytes
    }

    pub fn any_variable(&self, rng: &mut Rng) -> u8 {
        rng.below(self.widths.len()) as u8
    }

    /// A variable whose width stands in this relation to that of `to`.
    pub fn variable_where(
        &self,
        rng: &mut Rng,
        to: u8,
        fits: impl Fn(u8, u8) -> bool,
    ) -> Option<u8> {
        let width = self.widths[usize::from(to)];
        let count = self.widths.len();
        let start = rng.below(count);
        (start..start + count)
            .map(|k| k % count)
            .find(|&k| fits(self.widths[k], width))
            .map(|k| k as u8)
    }
}

enum Item {
    Commands(Vec<u8>),
    If { head: [u8; 4], arms: [usize; 2] },
}

struct List {
    /// How many ifs are open around this list.
    depth: usize,
    items: Vec<Item>,
}

pub struct Draft {
    pub header: Header,
    lists: Vec<List>,
    /// The lists that a run is likely to come to.
    spine: Vec<usize>,
    /// The length in bytes once encoded.
    len: usize,
}

impl Draft {
    pub fn new(header: Header) -> Self {
        let len = header.byte_len() + 1;
        let top = List {
            depth: 0,
            items: Vec::new(),
        };
        Draft {
            header,
            lists: vec![top],
            spine: vec![TOP],
            len,
        }
    }

    /// How many bytes are left up to the longest routine.
    pub fn room(&self) -> usize {
        MAX_BYTES - self.len
    }

    /// Puts commands at any position of a list.
    pub fn insert(&mut self, rng: &mut Rng, list: usize, commands: Vec<u8>) {
        let at = self.any_position(rng, list);
        self.len += commands.len();
        self.lists[list].items.insert(at, Item::Commands(commands));
    }

    /// Puts an if with two empty arms at any position of a list; hands back
    /// the arms.
    pub fn insert_if(&mut self, rng: &mut Rng, list: usize, head: [u8; 4]) -> [usize; 2] {
        let at = self.any_position(rng, list);
        self.put_if(list, at, head)
    }

    /// Puts such an if at the end of a list.
    pub fn append_if(&mut self, list: usize, head: [u8; 4]) -> [usize; 2] {
        self.put_if(list, self.lists[list].items.len(), head)
    }

    fn any_position(&self, rng: &mut Rng, list: usize) -> usize {
        rng.below(self.lists[list].items.len() + 1)
    }

    fn put_if(&mut self, list: usize, at: usize, head: [u8; 4]) -> [usize; 2] {
        let depth = self.lists[list].depth + 1;
        let arms = [self.lists.len(), self.lists.len() + 1];
        self.lists.extend(arms.map(|_| List {
            depth,
            items: Vec::new(),
        }));
        self.len += head.len() + 2;
        self.lists[list].items.insert(at, Item::If { head, arms });
        arms
    }

    /// Notes that a run is likely to come to this list.
    pub fn extend_spine(&mut self, list: usize) {
        self.spine.push(list);
    }

    /// A list that a run is likely to come to, often the innermost.
    pub fn spine_list(&self, rng: &mut Rng) -> usize {
        match self.spine.last() {
            Some(&innermost) if rng.chance(50) => innermost,
            _ => rng.pick(&self.spine),
        }
    }

    /// Any list, often one that a run is likely to come to.
    pub fn any_list(&self, rng: &mut Rng) -> usize {
        match rng.below(10) {
            0 | 1 => TOP,
            2..=4 => self.spine_list(rng),
            _ => rng.below(self.lists.len()),
        }
    }

    /// Any list with so many ifs open around it, if there is one.
    pub fn list_at(&self, rng: &mut Rng, depths: RangeInclusive<usize>) -> Option<usize> {
        let count = self.lists.len();
        let start = rng.below(count);
        (start..start + count)
            .map(|k| k % count)
            .find(|&k| depths.contains(&self.lists[k].depth))
    }

    pub fn encode(&self) -> Vec<u8> {
        let mut bytes = self.header.encode();
        self.encode_list(TOP, &mut bytes);
        bytes.push(0x00);
        debug_assert_eq!(bytes.len(), self.len);
        bytes
    }

    fn encode_list(&self, list: usize, bytes: &mut Vec<u8>) {
        for item in &self.lists[list].items {
            match item {
                Item::Commands(commands) => bytes.extend_from_slice(commands),
                Item::If { head, arms } => {
                    bytes.extend_from_slice(head);
                    self.encode_list(arms[0], bytes);
                    bytes.push(0x0C);
                    self.encode_list(arms[1], bytes);
                    bytes.push(0x0D);
                }
            }
        }
    }
}
